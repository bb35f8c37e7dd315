//! The SRv6 subobject (type 40): a first octet (in an ERO L and 7 bits of type, in an RRO 8 bits of type), a length octet that counts all of it, NT (4
//! bits) and 12 flags, the last of them V, T, F, S; 2 reserved octets, the behaviour (2), the SID (16, if S is 0), the NAI by NT, the SID structure
//! (8, if T is 1 and S is 0).
//!
//! Refused with 8, 9, 7, 10, 11. Stray are the flags but V, T, F, S, those of the structure, and reserved octets (4, 5, three of the structure).

use crate::answer::*;
use crate::segment::{zero, Layout, Segment, Strays};

pub(crate) struct Srv6;

pub const KIND: u8 = 40;
pub const SID: usize = 16;
pub const FLAG_S: u8 = 1;
const FLAG_F: u8 = 2;
const FLAG_T: u8 = 4;
const FLAG_V: u8 = 8;
const MOST_BITS: u32 = 128;

/// Octets of the NAI, or none if the NT is not one of ours.
#[inline]
pub fn nai_size(nt: u8) -> Option<usize> {
    match nt {
        0 => Some(0),
        2 => Some(16),
        4 => Some(32),
        6 => Some(40),
        _ => None,
    }
}

#[inline]
fn bits(structure: &[u8]) -> u32 {
    structure[..4].iter().map(|&n| n as u32).sum()
}

impl Layout for Srv6 {
    const KIND: u8 = KIND;

    #[inline]
    fn broken(sub: &[u8], sid_needed: bool) -> Option<(u8, bool)> {
        let flags = sub[3];
        let Some(nai) = nai_size(sub[2] >> 4) else {
            return Some((NAI_UNKNOWN, true));
        };
        let no_sid = flags & FLAG_S != 0;
        let no_nai = flags & FLAG_F != 0;
        if no_sid && no_nai {
            return Some((NOTHING_THERE, true));
        }
        let structured = flags & FLAG_T != 0 && !no_sid;
        let expected = 8 + if no_sid { 0 } else { SID } + nai + if structured { 8 } else { 0 };
        if no_nai != (nai == 0) || sub.len() != expected {
            return Some((LENGTH_WRONG, true));
        }
        if no_sid && sid_needed {
            return Some((SID_NEEDED, true));
        }
        if structured && bits(&sub[24 + nai..]) > MOST_BITS {
            return Some((STRUCTURE_TOO_LONG, true));
        }
        None
    }

    /// The structure's 3 reserved octets and its flags are the last four.
    #[inline]
    fn strays(sub: &[u8]) -> Strays {
        let mut strays = Strays { flags: u16::from_be_bytes([sub[2], sub[3]]) & 0x0ff0, structure: 0, reserved: sub[4] != 0 || sub[5] != 0 };
        if sub[3] & FLAG_T != 0 && sub[3] & FLAG_S == 0 {
            let last = &sub[sub.len() - 4..];
            strays.structure = last[3];
            strays.reserved |= last[0] != 0 || last[1] != 0 || last[2] != 0;
        }
        strays
    }

    #[inline]
    fn read(sub: &[u8], ero: bool) -> Segment {
        let flags = sub[3];
        let mut segment = Segment {
            loose: ero && sub[0] & 0x80 != 0,
            verify: ero && flags & FLAG_V != 0,
            nt: sub[2] >> 4,
            behaviour: u16::from_be_bytes([sub[6], sub[7]]),
            has_sid: flags & FLAG_S == 0,
            ..Segment::default()
        };
        let mut at = 8;
        if segment.has_sid {
            segment.sid.copy_from_slice(&sub[8..24]);
            at = 24;
        }
        let nai = nai_size(segment.nt).unwrap_or(0);
        segment.nai[..nai].copy_from_slice(&sub[at..at + nai]);
        at += nai;
        if segment.has_sid && flags & FLAG_T != 0 {
            segment.structured = true;
            segment.structure.copy_from_slice(&sub[at..at + 4]);
        }
        segment
    }

    #[inline]
    fn size(segment: &Segment, ero: bool) -> Answer<usize> {
        let Some(nai) = nai_size(segment.nt) else {
            return refuse(NAI_UNKNOWN);
        };
        if !segment.has_sid && nai == 0 {
            return refuse(NOTHING_THERE);
        }
        if segment.structured && !segment.has_sid
            || segment.labelled
            || segment.complete
            || !ero && (segment.loose || segment.verify)
            || !segment.has_sid && !zero(&segment.sid)
            || !zero(&segment.nai[nai..])
            || !segment.structured && !zero(&segment.structure)
        {
            return refuse(LENGTH_WRONG);
        }
        if bits(&segment.structure) > MOST_BITS {
            return refuse(STRUCTURE_TOO_LONG);
        }
        Ok(8 + if segment.has_sid { SID } else { 0 } + nai + if segment.structured { 8 } else { 0 })
    }

    #[inline]
    fn write(segment: &Segment, sub: &mut [u8]) {
        let nai = nai_size(segment.nt).unwrap_or(0);
        let mut flags = 0;
        if !segment.has_sid {
            flags |= FLAG_S;
        }
        if nai == 0 {
            flags |= FLAG_F;
        }
        if segment.structured {
            flags |= FLAG_T;
        }
        if segment.verify {
            flags |= FLAG_V;
        }
        let [high, low] = segment.behaviour.to_be_bytes();
        let first = KIND | if segment.loose { 0x80 } else { 0 };
        let size = sub.len() as u8;
        sub[..8].copy_from_slice(&[first, size, segment.nt << 4, flags, 0, 0, high, low]);
        let (sid_part, rest) = sub[8..].split_at_mut(if segment.has_sid { SID } else { 0 });
        if segment.has_sid {
            sid_part.copy_from_slice(&segment.sid);
        }
        let (nai_part, rest) = rest.split_at_mut(nai);
        nai_part.copy_from_slice(&segment.nai[..nai]);
        if segment.structured {
            rest[..4].copy_from_slice(&segment.structure);
            rest[4..].fill(0);
        }
    }
}
