//! The OPEN object: class 1, type 1, a length that counts all, version 1 in the top 3 bits, keepalive, dead timer, session number, TLVs.
//!
//! TLV 34 holds 3 reserved octets, a count, that many setup types padded to 4, then sub-TLVs; only the padding of its last sub-TLV may be
//! missing or cut. Sub-TLV 27 (type 3, SRv6) holds 2 reserved octets, 2 flag octets (N is 2, X is 1), then pairs of MSD type and value.
//! A and R stand at two positions of the 16 flag bits, counted from the high end, that come in at set-up: different ones of 0 to 13.
//! Sub-TLV 26 (type 1, MPLS; RFC 8664, 4.1.2) holds 2 reserved octets, a flag octet (N is 2, X is 1) and the depth. The first of each counts, and only where its
//! setup type is listed. Refused with 28, 1, 2, 3, in that order, and in each 26 before 27; a refusal names the form at fault, 0 for the frame.
//!
//! The depth limit of SRv6, without X: H.Encaps with v permits the larger of 1 and v segments, Segments Left with m permits m + 1; the smaller
//! counts, of a repeated type that of its smallest value; End Pop and End D set none. The smallest v and m are handed out beside it.
//! That of MPLS, without X, is the depth, which is not 0.

use crate::answer::{CAPABILITY_MISSING, NOT_USABLE, OPEN_MALFORMED, WRONG_MSD};
use crate::form::Form;

const CLASS: u8 = 1;
const TYPE: u8 = 1;
const VERSION: u8 = 1;
const SETUP_TYPES: u16 = 34;
const MPLS_CAPABILITY: u16 = 26;
const SRV6_CAPABILITY: u16 = 27;
const MPLS: u8 = 1;
const SRV6: u8 = 3;
const FLAG_N: u8 = 2;
const FLAG_X: u8 = 1;
const SEGMENTS_LEFT: u8 = 41;
const END_POP: u8 = 42;
const H_ENCAPS: u8 = 44;
const END_D: u8 = 45;

/// Where A and R stand.
#[derive(Clone, Copy, Debug, PartialEq, Eq)]
pub struct Setup {
    pub a: u64,
    pub r: u64,
}

/// What an accepted OPEN says. Without SRv6, flags are false and there are neither limit nor v and m.
#[derive(Clone, Copy, Debug, Default, PartialEq, Eq)]
pub struct Open {
    pub srv6: bool,
    pub n: bool,
    pub limit: Option<usize>,
    pub a: bool,
    pub r: bool,
    pub v: Option<u8>,
    pub m: Option<u8>,
    pub mpls: Option<Mpls>,
}

/// What sub-TLV 26 says.
#[derive(Clone, Copy, Debug, Default, PartialEq, Eq)]
pub struct Mpls {
    pub n: bool,
    pub limit: Option<usize>,
}

/// Why an OPEN is refused: the number, and the setup type of the form at fault, 0 where it is no form's.
#[derive(Clone, Copy, Debug, PartialEq, Eq)]
pub struct Fault {
    pub number: u8,
    pub form: u8,
}

pub type OpenAnswer = Result<Open, Fault>;

#[inline]
fn refuse<T>(number: u8) -> Result<T, Fault> {
    Err(Fault { number, form: 0 })
}

#[inline]
fn refuse_form<T>(number: u8, form: Form) -> Result<T, Fault> {
    Err(Fault { number, form: form.pst() })
}

#[inline]
fn be16(s: &[u8]) -> u16 {
    u16::from_be_bytes([s[0], s[1]])
}

#[inline]
fn padded(n: usize) -> usize {
    (n + 3) & !3
}

/// The first item of a list (type and value) and what stands behind it and its padding, which may be missing or cut at the list's end.
#[inline]
fn item(list: &[u8]) -> Option<(u16, &[u8], &[u8])> {
    if list.len() < 4 {
        return None;
    }
    let (head, tail) = list.split_at(4);
    let size = be16(&head[2..]) as usize;
    let value = tail.get(..size)?;
    Some((be16(head), value, tail.get(padded(size)..).unwrap_or(&[])))
}

/// The values of the first items of these types, if all of the list consists of whole items.
#[inline]
fn first_of<const K: usize>(mut list: &[u8], wanted: [u16; K]) -> Option<[Option<&[u8]>; K]> {
    let mut found = [None; K];
    while !list.is_empty() {
        let (kind, value, rest) = item(list)?;
        for (first, &this) in found.iter_mut().zip(&wanted) {
            if kind == this && first.is_none() {
                *first = Some(value);
            }
        }
        list = rest;
    }
    Some(found)
}

/// What TLV 34 says of a form: whether its setup type is listed, and the value of its sub-TLV.
type Capability<'a> = (bool, Option<&'a [u8]>);

/// MPLS's and SRv6's half of TLV 34.
#[inline]
fn setup(value: &[u8]) -> Option<(Capability<'_>, Capability<'_>)> {
    let count = *value.get(3)? as usize;
    let types = &value[4..];
    let list = types.get(padded(count)..)?;
    let [mpls, srv6] = first_of(list, [MPLS_CAPABILITY, SRV6_CAPABILITY])?;
    Some(((types[..count].contains(&MPLS), mpls), (types[..count].contains(&SRV6), srv6)))
}

pub fn read_open(at: Setup, s: &[u8]) -> OpenAnswer {
    if at.a > 13 || at.r > 13 || at.a == at.r {
        return refuse(NOT_USABLE);
    }
    let size = s.len();
    if size < 8 || size % 4 != 0 || s[0] != CLASS || s[1] >> 4 != TYPE || be16(&s[2..]) as usize != size || s[4] >> 5 != VERSION {
        return refuse(OPEN_MALFORMED);
    }
    let Some([found]) = first_of(&s[8..], [SETUP_TYPES]) else {
        return refuse(OPEN_MALFORMED);
    };
    let Some(value) = found else {
        return Ok(Open::default());
    };
    let Some((mpls, srv6)) = setup(value) else {
        return refuse(OPEN_MALFORMED);
    };
    match mpls {
        (true, Some(value)) if value.len() != 4 => return refuse_form(OPEN_MALFORMED, Form::Mpls),
        _ => {}
    }
    match srv6 {
        (true, Some(value)) if value.len() < 4 || value.len() % 2 != 0 => return refuse_form(OPEN_MALFORMED, Form::Srv6),
        _ => {}
    }
    for (half, form) in [(mpls, Form::Mpls), (srv6, Form::Srv6)] {
        if let (true, None) = half {
            return refuse_form(CAPABILITY_MISSING, form);
        }
    }
    let mut said = Open::default();
    if let (true, Some(value)) = mpls {
        said.mpls = Some(read_mpls(value)?);
    }
    if let (true, Some(value)) = srv6 {
        said = read_srv6(at, value, said)?;
    }
    Ok(said)
}

#[inline]
fn read_mpls(value: &[u8]) -> Result<Mpls, Fault> {
    let (flags, depth) = (value[2], value[3]);
    let free = flags & FLAG_X != 0;
    if !free && depth == 0 {
        return refuse_form(WRONG_MSD, Form::Mpls);
    }
    Ok(Mpls { n: flags & FLAG_N != 0, limit: (!free).then_some(depth.into()) })
}

#[inline]
fn read_srv6(at: Setup, capability: &[u8], said: Open) -> OpenAnswer {
    let flags = capability[3];
    let all = be16(&capability[2..]);
    let said = Open { srv6: true, n: flags & FLAG_N != 0, a: all & 0x8000 >> at.a != 0, r: all & 0x8000 >> at.r != 0, ..said };
    if flags & FLAG_X != 0 {
        return Ok(said);
    }
    let pairs = capability[4..].chunks_exact(2);
    if pairs.clone().any(|pair| !matches!(pair[0], SEGMENTS_LEFT | END_POP | H_ENCAPS | END_D)) {
        return refuse_form(WRONG_MSD, Form::Srv6);
    }
    // Each pair permits its own number; the smallest of these is that of the smallest values.
    let limit = pairs
        .filter_map(|pair| match pair[0] {
            H_ENCAPS => Some(usize::from(pair[1].max(1))),
            SEGMENTS_LEFT => Some(usize::from(pair[1]) + 1),
            _ => None,
        })
        .min();
    let smallest = |wanted: u8| capability[4..].chunks_exact(2).filter(|pair| pair[0] == wanted).map(|pair| pair[1]).min();
    Ok(Open { limit, v: smallest(H_ENCAPS), m: smallest(SEGMENTS_LEFT), ..said })
}
