//! What the SID of an MPLS segment is: an index, or a label stack entry.

/// A label stack entry (RFC 3032): a label of 20 bits, TC of 3, S, the bottom of the stack, and TTL.
///
/// ```
/// use strundevi::Label;
/// let entry = Label::new(16001, 5, true, 64).unwrap();
/// assert_eq!((entry.label(), entry.tc(), entry.s(), entry.ttl()), (16001, 5, true, 64));
/// assert_eq!(Label::new(1 << 20, 0, false, 0), None);
/// assert_eq!(Label::new(16, 8, false, 0), None);
/// ```
#[derive(Clone, Copy, Debug, PartialEq, Eq, Hash)]
pub struct Label(u32);

impl Label {
    /// The largest label.
    pub const MOST: u32 = 0xF_FFFF;

    /// None if the label has more than 20 bits, or TC more than 3.
    #[inline]
    pub const fn new(label: u32, tc: u8, s: bool, ttl: u8) -> Option<Label> {
        if label > Label::MOST || tc > 7 {
            return None;
        }
        Some(Label(label << 12 | (tc as u32) << 9 | (s as u32) << 8 | ttl as u32))
    }

    /// The label alone: TC, S and TTL are 0. None if it has more than 20 bits.
    #[inline]
    pub const fn only(label: u32) -> Option<Label> {
        Label::new(label, 0, false, 0)
    }

    /// The entry of these four octets.
    #[inline]
    pub const fn from_octets(octets: [u8; 4]) -> Label {
        Label(u32::from_be_bytes(octets))
    }

    #[inline]
    pub const fn octets(self) -> [u8; 4] {
        self.0.to_be_bytes()
    }

    #[inline]
    pub const fn label(self) -> u32 {
        self.0 >> 12
    }

    #[inline]
    pub const fn tc(self) -> u8 {
        (self.0 >> 9 & 7) as u8
    }

    #[inline]
    pub const fn s(self) -> bool {
        self.0 >> 8 & 1 != 0
    }

    #[inline]
    pub const fn ttl(self) -> u8 {
        self.0 as u8
    }
}

/// The SID of an MPLS segment. A route that mixes labels, indices and segments without a SID, or has S 1 in an `Entry` before the last, is written and accepted
/// here; a peer that checks refuses it with PCErr 10/20 or 10/4.
#[derive(Clone, Copy, Debug, PartialEq, Eq, Hash)]
pub enum MplsSid {
    /// M 0: an index into a space of labels.
    Index(u32),
    /// M 1, C 0: a label. TC, S and TTL are for the head end to choose, whatever stands there.
    Label(Label),
    /// M 1, C 1: a label with the TC, S and TTL to use. A TTL of 0 is refused with 30.
    Entry(Label),
}

impl MplsSid {
    /// The four octets that it is written in.
    #[inline]
    pub const fn octets(self) -> [u8; 4] {
        match self {
            MplsSid::Index(index) => index.to_be_bytes(),
            MplsSid::Label(entry) | MplsSid::Entry(entry) => entry.octets(),
        }
    }

    /// M.
    #[inline]
    pub const fn labelled(self) -> bool {
        !matches!(self, MplsSid::Index(_))
    }

    /// C.
    #[inline]
    pub const fn complete(self) -> bool {
        matches!(self, MplsSid::Entry(_))
    }
}
