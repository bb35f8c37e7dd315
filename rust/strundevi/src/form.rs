//! The two forms of a route, each named by a setup type.

/// The setup type of MPLS paths.
pub const PST_MPLS: u64 = 1;

/// The setup type of SRv6 paths.
pub const PST_SRV6: u64 = 3;

/// What a route's segments are. A setup type that is neither's is judged as SRv6's, and refused with 13 at the latest.
#[derive(Clone, Copy, Debug, PartialEq, Eq, Hash, PartialOrd, Ord)]
pub enum Form {
    /// RFC 8664: labels and indices.
    Mpls,
    Srv6,
}

impl Form {
    /// The form that a setup type names: 1 is MPLS's, every other SRv6's.
    #[inline]
    pub const fn of(pst: u64) -> Form {
        match pst {
            PST_MPLS => Form::Mpls,
            _ => Form::Srv6,
        }
    }

    /// Its setup type.
    #[inline]
    pub const fn pst(self) -> u64 {
        match self {
            Form::Mpls => PST_MPLS,
            Form::Srv6 => PST_SRV6,
        }
    }
}
