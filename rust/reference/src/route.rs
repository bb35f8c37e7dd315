//! The route object: ERO is class 7, RRO class 8, both type 1; subobjects of a first octet (in an ERO L and 7 bits of type, in an RRO 8 bits
//! of type), a length octet that counts all of it, and what the form that the setup type names puts behind (`srv6`, `mpls`).
//!
//! Refused with 28 for the addresses, 4, 5, 6, 14, 13 for the whole, then in each subobject 8, 9, 7, 10, 11, 29, 30, last 12; for a segment then 15. 6, 14 and
//! 13 ask for the form's subobjects and its agreement; of a setup type that names none, SRv6's, and then 13.
//!
//! The first segment of an SRv6 ERO stays off the header if R is agreed, or A is and it is an adjacency (NT 4 or 6) whose local address, the first
//! 16 octets of its NAI, is one of the head end's. H.Encaps' v then permits v + 1. An MPLS ERO has at most as many segments as the depth.
//!
//! An accepted route also carries how many of its segments are stray.

use crate::answer::*;
use crate::form::{Form, PST_SRV6};
use crate::mpls::Mpls;
use crate::segment::{Counts, Layout, Segment, Strays};
use crate::session::Session;
use crate::srv6::{self, Srv6};

pub const OBJECT_TYPE: u8 = 1;

#[derive(Clone, Copy, Debug, PartialEq, Eq)]
pub enum Kind {
    Ero,
    Rro,
}

impl Kind {
    #[inline]
    pub fn class(self) -> u8 {
        match self {
            Kind::Ero => 7,
            Kind::Rro => 8,
        }
    }

    #[inline]
    fn type_bits(self) -> u8 {
        match self {
            Kind::Ero => 0x7f,
            Kind::Rro => 0xff,
        }
    }
}

/// Rules 4, 5, 6, 14.
#[inline]
fn framed<L: Layout>(s: &[u8], kind: Kind) -> Answer<()> {
    let size = s.len();
    if size < 4 || size % 4 != 0 || s[0] != kind.class() || s[1] >> 4 != OBJECT_TYPE || u16::from_be_bytes([s[2], s[3]]) as usize != size {
        return refuse(FRAME_BROKEN);
    }
    if size == 4 {
        return refuse(ROUTE_EMPTY);
    }
    let mask = kind.type_bits();
    let first = s[4] & mask;
    let mut any = false;
    let mut other = 0;
    let mut at = 4;
    while at < size {
        let length = s[at + 1] as usize;
        if length < 4 || length % 4 != 0 || length > size - at {
            return refuse(FRAME_BROKEN);
        }
        let this = s[at] & mask;
        any |= this == L::KIND;
        if this != first && other == 0 {
            other = at;
        }
        at += length;
    }
    if !any {
        return refuse(NONE_OF_FORM);
    }
    if other != 0 {
        return refuse_at(KINDS_MIXED, other);
    }
    Ok(())
}

/// Whether the first segment of an ERO that broke no rule stays off the header.
#[inline]
fn stays_off(s: &[u8], session: &Session, addresses: &[u8]) -> bool {
    if session.r || !session.a {
        return session.r;
    }
    let nai = if s[7] & srv6::FLAG_S != 0 { 12 } else { 28 };
    matches!(s[6] >> 4, 4 | 6) && addresses.chunks_exact(16).any(|address| s.get(nai..nai + 16) == Some(address))
}

/// How many segments an SRv6 ERO may have.
#[inline]
fn most(s: &[u8], session: &Session, addresses: &[u8]) -> Option<usize> {
    let v = match session.v {
        Some(v) if stays_off(s, session, addresses) => usize::from(v) + 1,
        _ => return session.limit,
    };
    Some(session.m.map_or(v, |m| v.min(usize::from(m) + 1)))
}

/// What the session of a form says, if it is agreed: N, and how many segments an ERO may have.
type Agreed = Option<(bool, Option<usize>)>;

/// The checks, with segment `wanted` looked up on the way: its subobject, if it is there. The session is asked of an object whose frame is whole.
#[inline]
fn walk<'a, L: Layout>(s: &'a [u8], kind: Kind, agreed: impl FnOnce() -> Agreed, wanted: u64) -> Answer<(Counts, Option<&'a [u8]>)> {
    framed::<L>(s, kind)?;
    let Some((n, most)) = agreed() else {
        return refuse(NOT_AGREED);
    };
    let ero = kind == Kind::Ero;
    let sid_needed = ero && !n;
    let limit = if ero { most.unwrap_or(usize::MAX) } else { usize::MAX };
    let (mut count, mut stray, mut over, mut found) = (0, 0, 0, None);
    let mut rest = &s[4..];
    while let Some(&length) = rest.get(1) {
        let at = s.len() - rest.len();
        let (sub, behind) = rest.split_at(length as usize);
        if let Some((number, placed)) = L::broken(sub, sid_needed) {
            return refuse_at(number, if placed { at } else { 0 });
        }
        if count == limit {
            over = at;
        }
        if count as u64 == wanted {
            found = Some(sub);
        }
        count += 1;
        stray += L::strays(sub).any() as usize;
        rest = behind;
    }
    if over != 0 {
        return refuse_at(TOO_MANY_SEGMENTS, over);
    }
    Ok((Counts { segments: count, stray }, found))
}

#[inline]
fn walk_srv6<'a>(s: &'a [u8], kind: Kind, session: &Session, pst: u64, addresses: &[u8], wanted: u64) -> Answer<(Counts, Option<&'a [u8]>)> {
    let agreed = || (pst == PST_SRV6 && session.agreed).then(|| (session.n, if kind == Kind::Ero { most(s, session, addresses) } else { None }));
    walk::<Srv6>(s, kind, agreed, wanted)
}

#[inline]
fn walk_mpls<'a>(s: &'a [u8], kind: Kind, session: &Session, wanted: u64) -> Answer<(Counts, Option<&'a [u8]>)> {
    walk::<Mpls>(s, kind, || session.mpls.map(|mpls| (mpls.n, mpls.limit)), wanted)
}

/// Rule 28 of the addresses.
#[inline]
fn usable(addresses: &[u8]) -> Answer<()> {
    if addresses.len() % 16 != 0 {
        return refuse(NOT_USABLE);
    }
    Ok(())
}

/// The number of segments of a good route, and of those that are stray.
pub fn judge(s: &[u8], kind: Kind, session: &Session, pst: u64, addresses: &[u8]) -> Answer<Counts> {
    usable(addresses)?;
    match Form::of(pst) {
        Form::Srv6 => walk_srv6(s, kind, session, pst, addresses, u64::MAX),
        Form::Mpls => walk_mpls(s, kind, session, u64::MAX),
    }
    .map(|(counts, _)| counts)
}

/// Segment `i`, from 0, of a good route, and what is set in its octets and ought to be 0.
pub fn segment(s: &[u8], kind: Kind, session: &Session, pst: u64, addresses: &[u8], i: u64) -> Answer<(Segment, Strays)> {
    usable(addresses)?;
    match Form::of(pst) {
        Form::Srv6 => picked::<Srv6>(walk_srv6(s, kind, session, pst, addresses, i)?.1, kind),
        Form::Mpls => picked::<Mpls>(walk_mpls(s, kind, session, i)?.1, kind),
    }
}

#[inline]
fn picked<L: Layout>(sub: Option<&[u8]>, kind: Kind) -> Answer<(Segment, Strays)> {
    match sub {
        Some(sub) => Ok((L::read(sub, kind == Kind::Ero), L::strays(sub))),
        None => refuse(NO_SUCH_SEGMENT),
    }
}

/// The segment at a place of a route of this setup type, looked at by itself, and the place behind it: 15, 4, 14, then 8, 9, 7, 11, 29, 30.
#[inline]
pub fn step(s: &[u8], kind: Kind, pst: u64, at: usize) -> Answer<(Segment, usize)> {
    match Form::of(pst) {
        Form::Srv6 => step_in::<Srv6>(s, kind, at),
        Form::Mpls => step_in::<Mpls>(s, kind, at),
    }
}

#[inline]
fn step_in<L: Layout>(s: &[u8], kind: Kind, at: usize) -> Answer<(Segment, usize)> {
    if at < 4 || at % 4 != 0 || at >= s.len() {
        return refuse(NO_SUCH_SEGMENT);
    }
    let rest = &s[at..];
    let length = rest.get(1).map_or(0, |&length| length as usize);
    if length < 4 || length % 4 != 0 || length > rest.len() {
        return refuse(FRAME_BROKEN);
    }
    if rest[0] & kind.type_bits() != L::KIND {
        return refuse(NONE_OF_FORM);
    }
    if let Some((number, placed)) = L::broken(&rest[..length], false) {
        return refuse_at(number, if placed { at } else { 0 });
    }
    Ok((L::read(&rest[..length], kind == Kind::Ero), at + length))
}
