//! The MPLS subobject (type 36, RFC 8664, 4.3.1): a first octet and a length octet as in SRv6's, NT (4 bits) and 12 flags, the last of them F, S, C, M, with V
//! (document 003, bit 7) in front of F; the SID (4, if S is 0), the NAI by NT. A SID is an index, or, where M is 1, a label stack entry (RFC 3032):
//! label (20 bits), TC (3), S (1), TTL (8). Where C is 1 too, TC, S and TTL count.
//!
//! Refused with 8 (NT above 6), 9, 7 (also where C is 1 without M, or M or C without a SID), 10, 29 (a label up to 15 that is not 7), 30 (C with TTL 0);
//! 29 and 30 name no place. Stray are the flags but V, F, S, C, M; no octet is reserved.

use crate::answer::*;
use crate::segment::{zero, Layout, Segment, Strays};

pub(crate) struct Mpls;

pub const KIND: u8 = 36;
pub const SID: usize = 4;
const FLAG_M: u8 = 1;
const FLAG_C: u8 = 2;
const FLAG_S: u8 = 4;
const FLAG_F: u8 = 8;
const FLAG_V: u8 = 16;
const LABEL_SPECIAL_MOST: u32 = 15;
const LABEL_ENTROPY: u32 = 7;

/// Octets of the NAI (4.3.2), or none if the NT is not one of ours.
#[inline]
pub fn nai_size(nt: u8) -> Option<usize> {
    match nt {
        0 => Some(0),
        1 => Some(4),
        2 => Some(16),
        3 => Some(8),
        4 => Some(32),
        5 => Some(16),
        6 => Some(40),
        _ => None,
    }
}

/// Rules 29 and 30 of a label stack entry.
#[inline]
fn bad_entry(entry: &[u8], complete: bool) -> Option<u8> {
    let entry = u32::from_be_bytes([entry[0], entry[1], entry[2], entry[3]]);
    let (label, ttl) = (entry >> 12, entry & 0xff);
    if label <= LABEL_SPECIAL_MOST && label != LABEL_ENTROPY {
        return Some(BAD_LABEL_VALUE);
    }
    if complete && ttl == 0 {
        return Some(BAD_LABEL_FORMAT);
    }
    None
}

impl Layout for Mpls {
    const KIND: u8 = KIND;

    #[inline]
    fn broken(sub: &[u8], sid_needed: bool) -> Option<(u8, bool)> {
        let flags = sub[3];
        let Some(nai) = nai_size(sub[2] >> 4) else {
            return Some((NAI_UNKNOWN, true));
        };
        let no_sid = flags & FLAG_S != 0;
        let no_nai = flags & FLAG_F != 0;
        if no_sid && no_nai {
            return Some((NOTHING_THERE, true));
        }
        let labelled = flags & FLAG_M != 0;
        let complete = flags & FLAG_C != 0;
        let expected = 4 + if no_sid { 0 } else { SID } + nai;
        if no_nai != (nai == 0) || sub.len() != expected || no_sid && (labelled || complete) || complete && !labelled {
            return Some((LENGTH_WRONG, true));
        }
        if no_sid && sid_needed {
            return Some((SID_NEEDED, true));
        }
        if labelled {
            return bad_entry(&sub[4..], complete).map(|number| (number, false));
        }
        None
    }

    #[inline]
    fn strays(sub: &[u8]) -> Strays {
        Strays { flags: u16::from_be_bytes([sub[2], sub[3]]) & 0x0fe0, structure: 0, reserved: false }
    }

    #[inline]
    fn read(sub: &[u8], ero: bool) -> Segment {
        let flags = sub[3];
        let mut segment = Segment {
            loose: ero && sub[0] & 0x80 != 0,
            verify: ero && flags & FLAG_V != 0,
            nt: sub[2] >> 4,
            has_sid: flags & FLAG_S == 0,
            labelled: flags & FLAG_M != 0,
            complete: flags & FLAG_C != 0,
            ..Segment::default()
        };
        let mut at = 4;
        if segment.has_sid {
            segment.sid[..SID].copy_from_slice(&sub[4..8]);
            at = 8;
        }
        let nai = nai_size(segment.nt).unwrap_or(0);
        segment.nai[..nai].copy_from_slice(&sub[at..at + nai]);
        segment
    }

    #[inline]
    fn size(segment: &Segment, ero: bool) -> Answer<usize> {
        let Some(nai) = nai_size(segment.nt) else {
            return refuse(NAI_UNKNOWN);
        };
        if !segment.has_sid && nai == 0 {
            return refuse(NOTHING_THERE);
        }
        let behind = if segment.has_sid { SID } else { 0 };
        if segment.behaviour != 0
            || segment.structured
            || !zero(&segment.structure)
            || !ero && (segment.loose || segment.verify)
            || !zero(&segment.sid[behind..])
            || !zero(&segment.nai[nai..])
            || !segment.has_sid && (segment.labelled || segment.complete)
            || segment.complete && !segment.labelled
        {
            return refuse(LENGTH_WRONG);
        }
        if segment.labelled {
            if let Some(number) = bad_entry(&segment.sid, segment.complete) {
                return refuse(number);
            }
        }
        Ok(4 + behind + nai)
    }

    #[inline]
    fn write(segment: &Segment, sub: &mut [u8]) {
        let nai = nai_size(segment.nt).unwrap_or(0);
        let mut flags = 0;
        for (set, flag) in
            [(segment.labelled, FLAG_M), (segment.complete, FLAG_C), (!segment.has_sid, FLAG_S), (nai == 0, FLAG_F), (segment.verify, FLAG_V)]
        {
            if set {
                flags |= flag;
            }
        }
        let first = KIND | if segment.loose { 0x80 } else { 0 };
        let size = sub.len() as u8;
        sub[..4].copy_from_slice(&[first, size, segment.nt << 4, flags]);
        let (sid_part, nai_part) = sub[4..].split_at_mut(if segment.has_sid { SID } else { 0 });
        sid_part.copy_from_slice(&segment.sid[..sid_part.len()]);
        nai_part.copy_from_slice(&segment.nai[..nai]);
    }
}
