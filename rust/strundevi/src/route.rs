//! Judging a route, and asking for its segments.

use crate::answer::{Counts, Result};
use crate::open::Session;
use crate::raw;
use crate::segment::{Segment, Strays};

/// Which object a route is: an ERO, the route to take, or an RRO, the route taken.
#[derive(Clone, Copy, Debug, PartialEq, Eq)]
pub enum Kind {
    Ero,
    Rro,
}

impl Kind {
    #[inline]
    pub(crate) fn raw(self) -> u8 {
        match self {
            Kind::Rro => 0,
            Kind::Ero => 1,
        }
    }

    #[inline]
    pub(crate) fn of(ero: u8) -> Kind {
        match ero {
            0 => Kind::Rro,
            _ => Kind::Ero,
        }
    }
}

/// The number of segments of a good route, and of those that are stray. The octets are one object, from its class octet on. Refused with 28; 4, 5, 6, 14, 13; 8, 9,
/// 7, 10, 11, 29, 30 segment by segment; 12. The setup type names the form ([`Form::of`](crate::Form::of)).
///
/// The addresses are the head end's, 16 octets each: where A is agreed they say whether an ERO's first segment is one of its adjacencies, and so stays
/// off the header; where R is agreed it always does. One segment more is then within H.Encaps ([`Session`](crate::Session)).
#[inline]
pub fn judge(octets: &[u8], kind: Kind, session: &Session, pst: u64, addresses: &[u8]) -> Result<Counts> {
    raw::judge(octets, kind.raw(), session.raw(), pst, addresses).counts()
}

/// Segment `i`, from 0, of a good route, and what is set in its octets and ought to be 0. Refused as `judge` is, then with 15.
#[inline]
pub fn segment(octets: &[u8], kind: Kind, session: &Session, pst: u64, addresses: &[u8], i: u64) -> Result<(Segment, Strays)> {
    let r = raw::segment(octets, kind.raw(), session.raw(), pst, addresses, i);
    r.verdict.counts().map(|_| (Segment::of(r.segment), Strays { flags: r.flags, structure: r.sflags, reserved: r.reserved != 0 }))
}

/// The segments of a good route, one after the other, in one pass over its octets. What is stray in one of them [`segment`] tells.
///
/// ```
/// use strundevi::{segments, Kind, Session, PST_SRV6};
///
/// let session = Session { agreed: true, n: true, ..Session::default() };
/// let route = [7, 16, 0, 28, 40, 24, 0, 2, 0, 0, 0, 1, 32, 1, 13, 184, 0, 0, 0, 1, 0, 0, 0, 0, 0, 0, 0, 1];
/// let mut behaviours = Vec::new();
/// for segment in segments(&route, Kind::Ero, &session, PST_SRV6, &[])? {
///     behaviours.push(segment.behaviour());
/// }
/// assert_eq!(behaviours, [1]);
/// # Ok::<(), strundevi::Refusal>(())
/// ```
#[derive(Clone, Debug)]
pub struct Segments<'a> {
    octets: &'a [u8],
    kind: Kind,
    pst: u64,
    at: usize,
    left: usize,
}

/// The segments of a good route. Refused as `judge` is.
#[inline]
pub fn segments<'a>(octets: &'a [u8], kind: Kind, session: &Session, pst: u64, addresses: &[u8]) -> Result<Segments<'a>> {
    let left = judge(octets, kind, session, pst, addresses)?.segments;
    Ok(Segments { octets, kind, pst, at: FIRST_PLACE, left })
}

/// The place of a route's first segment.
pub const FIRST_PLACE: usize = 4;

/// The segment at a place of a route that was judged under this setup type, and the place behind it. Refused with 15 at a place under 4, no multiple of 4, or at
/// or past the end; with 4, 14, 8, 9, 7, 11, 29, 30 of the one subobject, which is all that is looked at.
#[inline]
pub fn step(octets: &[u8], kind: Kind, pst: u64, at: usize) -> Result<(Segment, usize)> {
    let r = raw::step(octets, kind.raw(), pst, at);
    r.verdict.counts().map(|_| (Segment::of(r.segment), r.next))
}

impl Iterator for Segments<'_> {
    type Item = Segment;

    #[inline]
    fn next(&mut self) -> Option<Segment> {
        let (segment, next) = step(self.octets, self.kind, self.pst, self.at).ok()?;
        self.at = next;
        self.left = self.left.saturating_sub(1);
        Some(segment)
    }

    fn size_hint(&self) -> (usize, Option<usize>) {
        (self.left, Some(self.left))
    }
}

impl ExactSizeIterator for Segments<'_> {}
