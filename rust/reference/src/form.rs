//! The two forms of a segment: a setup type names one, 1 MPLS's and every other SRv6's.

#[derive(Clone, Copy, Debug, PartialEq, Eq)]
pub enum Form {
    Mpls,
    Srv6,
}

pub const PST_MPLS: u64 = 1;
pub const PST_SRV6: u64 = 3;

impl Form {
    #[inline]
    pub fn of(pst: u64) -> Form {
        match pst {
            PST_MPLS => Form::Mpls,
            _ => Form::Srv6,
        }
    }

    /// The setup type of its routes.
    #[inline]
    pub fn pst(self) -> u8 {
        match self {
            Form::Mpls => PST_MPLS as u8,
            Form::Srv6 => PST_SRV6 as u8,
        }
    }

    /// Octets of a SID.
    #[inline]
    pub fn sid_size(self) -> usize {
        match self {
            Form::Mpls => crate::mpls::SID,
            Form::Srv6 => crate::srv6::SID,
        }
    }

    /// Octets of the NAI, or none if the form has no such NT.
    #[inline]
    pub fn nai_size(self, nt: u8) -> Option<usize> {
        match self {
            Form::Mpls => crate::mpls::nai_size(nt),
            Form::Srv6 => crate::srv6::nai_size(nt),
        }
    }
}
