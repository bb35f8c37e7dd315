//! A segment as it is read and written, and what is set in its octets and ought to be 0.

use crate::answer::Answer;

/// Of either form. Octets kept for a part that is absent or shorter are 0: an MPLS SID is the first 4 of the 16, and has no behaviour and no
/// structure; an SRv6 SID is no label.
#[derive(Clone, Copy, Debug, PartialEq, Eq)]
pub struct Segment {
    pub loose: bool,
    pub verify: bool,
    pub nt: u8,
    pub behaviour: u16,
    pub has_sid: bool,
    pub sid: [u8; 16],
    pub nai: [u8; 40],
    pub structured: bool,
    pub structure: [u8; 4],
    /// M: the SID is a label stack entry, not an index.
    pub labelled: bool,
    /// C: the entry's TC, S and TTL count too.
    pub complete: bool,
}

impl Default for Segment {
    fn default() -> Segment {
        Segment {
            loose: false,
            verify: false,
            nt: 0,
            behaviour: 0,
            has_sid: false,
            sid: [0; 16],
            nai: [0; 40],
            structured: false,
            structure: [0; 4],
            labelled: false,
            complete: false,
        }
    }
}

/// What an accepted route carries.
#[derive(Clone, Copy, Debug, PartialEq, Eq)]
pub struct Counts {
    pub segments: usize,
    pub stray: usize,
}

/// What is set in a subobject and ought to be 0: the 12 flag bits with the assigned ones 0, the flag octet of the structure (0 without one), and
/// whether a reserved octet is not 0.
#[derive(Clone, Copy, Debug, Default, PartialEq, Eq)]
pub struct Strays {
    pub flags: u16,
    pub structure: u8,
    pub reserved: bool,
}

impl Strays {
    pub fn any(&self) -> bool {
        self.flags != 0 || self.structure != 0 || self.reserved
    }
}

/// How the subobjects of a form are laid out.
pub(crate) trait Layout {
    /// The type of its subobjects.
    const KIND: u8;

    /// The rule that one subobject breaks, and whether the answer names its place.
    fn broken(sub: &[u8], sid_needed: bool) -> Option<(u8, bool)>;

    /// Of a subobject that broke no rule.
    fn strays(sub: &[u8]) -> Strays;

    /// What a subobject that broke no rule says; L and V are none's in an RRO.
    fn read(sub: &[u8], ero: bool) -> Segment;

    /// The octets that a segment takes, if adding refuses it by none of its own rules.
    fn size(segment: &Segment, ero: bool) -> Answer<usize>;

    /// Its octets, which are as many as `size` says.
    fn write(segment: &Segment, sub: &mut [u8]);
}

#[inline]
pub(crate) fn zero(octets: &[u8]) -> bool {
    octets.iter().all(|&o| o == 0)
}
