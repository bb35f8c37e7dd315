//! A segment, and what is set in its octets and ought to be 0.

use crate::label::{Label, MplsSid};
use crate::nai::Nai;
use crate::raw;

/// A segment of either form as it is read and written: a SID, an NAI, or both. What is absent is all zeros. It does not say of which form it is: the route
/// does, by its setup type; what one form has and the other has not is refused with 7 in adding.
///
/// ```
/// use strundevi::{Nai, Segment};
///
/// let local = "fe80::1".parse().unwrap();
/// let remote = "fe80::2".parse().unwrap();
/// let segment = Segment::with_sid([0x20; 16], 1).and_nai(Nai::Adjacency { local, remote }).and_structure([32, 16, 16, 0]).and_loose(true);
/// assert_eq!(segment.nt(), 4);
/// assert_eq!(segment.nai(), Some(Nai::Adjacency { local, remote }));
///
/// use strundevi::{Label, MplsSid};
///
/// let sid = MplsSid::Label(Label::only(16001).unwrap());
/// let segment = Segment::with_mpls_sid(sid).and_nai(Nai::Node4([192, 0, 2, 1].into()));
/// assert_eq!((segment.nt(), segment.mpls_sid()), (1, Some(sid)));
/// ```
#[derive(Clone, Copy, Debug, PartialEq, Eq)]
#[repr(transparent)]
pub struct Segment(raw::Segment);

impl Segment {
    /// An SRv6 segment that is a SID and nothing else.
    pub fn with_sid(sid: [u8; 16], behaviour: u16) -> Segment {
        Segment(raw::Segment { behaviour, hassid: 1, sid, ..raw::Segment::ZERO })
    }

    /// An MPLS segment that is a SID and nothing else: a label or an index.
    pub fn with_mpls_sid(sid: MplsSid) -> Segment {
        let mut raw = raw::Segment { hassid: 1, labelled: sid.labelled() as u8, complete: sid.complete() as u8, ..raw::Segment::ZERO };
        raw.sid[..4].copy_from_slice(&sid.octets());
        Segment(raw)
    }

    /// A segment that is an NAI and nothing else. One of MPLS has no behaviour: 0.
    pub fn with_nai(nai: Nai, behaviour: u16) -> Segment {
        Segment(raw::Segment { behaviour, ..raw::Segment::ZERO }).and_nai(nai)
    }

    /// The same with this NAI.
    pub fn and_nai(mut self, nai: Nai) -> Segment {
        self.0.nt = nai.nt();
        self.0.nai = nai.octets();
        self
    }

    /// The same with this SID structure: four bit lengths. Without a SID, and in an MPLS route, it is refused in adding.
    pub fn and_structure(mut self, bits: [u8; 4]) -> Segment {
        self.0.structured = 1;
        self.0.structure = bits;
        self
    }

    /// The same with L. In an RRO it is refused in adding.
    pub fn and_loose(mut self, loose: bool) -> Segment {
        self.0.loose = loose as u8;
        self
    }

    /// The same with V. In an RRO it is refused in adding.
    pub fn and_verify(mut self, verify: bool) -> Segment {
        self.0.verify = verify as u8;
        self
    }

    pub fn loose(&self) -> bool {
        self.0.loose != 0
    }

    pub fn verify(&self) -> bool {
        self.0.verify != 0
    }

    pub fn nt(&self) -> u8 {
        self.0.nt
    }

    /// 0 in an MPLS segment.
    pub fn behaviour(&self) -> u16 {
        self.0.behaviour
    }

    /// The SID of an SRv6 segment. One of MPLS stands in its first 4 octets.
    pub fn sid(&self) -> Option<&[u8; 16]> {
        (self.0.hassid != 0).then_some(&self.0.sid)
    }

    /// The SID of an MPLS segment, by M and C. An SRv6 segment with a SID answers too, with an index made of its first four octets, which means nothing.
    pub fn mpls_sid(&self) -> Option<MplsSid> {
        let [a, b, c, d, ..] = *self.sid()?;
        Some(match (self.labelled(), self.complete()) {
            (false, _) => MplsSid::Index(u32::from_be_bytes([a, b, c, d])),
            (true, false) => MplsSid::Label(Label::from_octets([a, b, c, d])),
            (true, true) => MplsSid::Entry(Label::from_octets([a, b, c, d])),
        })
    }

    /// M: the SID is a label. False in an SRv6 segment.
    pub fn labelled(&self) -> bool {
        self.0.labelled != 0
    }

    /// C: the label's TC, S and TTL are to be used.
    pub fn complete(&self) -> bool {
        self.0.complete != 0
    }

    pub fn nai(&self) -> Option<Nai> {
        Nai::of(self.0.nt, &self.0.nai)
    }

    /// The octets of the NAI: as many as NT asks for.
    pub fn nai_octets(&self) -> &[u8] {
        &self.0.nai[..Nai::size(self.0.nt)]
    }

    /// The four bit lengths of the SID structure.
    pub fn structure(&self) -> Option<[u8; 4]> {
        (self.0.structured != 0).then_some(self.0.structure)
    }

    #[inline]
    pub(crate) fn of(raw: raw::Segment) -> Segment {
        Segment(raw)
    }

    #[inline]
    pub(crate) fn raw(&self) -> &raw::Segment {
        &self.0
    }
}

/// What is set in a segment's octets and ought to be 0.
#[derive(Clone, Copy, Debug, Default, PartialEq, Eq, Hash)]
pub struct Strays {
    /// The 12 flag bits with the assigned ones (V, T, F, S; of MPLS V, F, S, C, M) as 0.
    pub flags: u16,
    /// The flag octet of the SID structure; 0 without one.
    pub structure: u8,
    /// A reserved octet is not 0.
    pub reserved: bool,
}

impl Strays {
    /// Whether anything is.
    pub fn any(&self) -> bool {
        self.flags != 0 || self.structure != 0 || self.reserved
    }
}
