//! Made-up OPEN and route objects: good ones, and ones in which a rule is broken on purpose.

use crate::octets::seal;
use crate::random::Random;
use reference::Form;

/// An item with its padding.
fn item(kind: u16, value: &[u8], padding: impl FnMut() -> u8) -> Vec<u8> {
    let mut octets = kind.to_be_bytes().to_vec();
    octets.extend_from_slice(&(value.len() as u16).to_be_bytes());
    octets.extend_from_slice(value);
    let missing = (4 - value.len() % 4) % 4;
    octets.extend(std::iter::repeat_with(padding).take(missing));
    octets
}

fn capability(r: &mut Random) -> Vec<u8> {
    let mut value = r.octets(4);
    value[3] &= if r.one_in(4) { 0xff } else { 0xfe };
    for _ in 0..r.of(&[0, 1, 1, 1, 2, 3, 8]) {
        let kind = if r.one_in(12) { r.octet() } else { r.of(&[41, 42, 44, 45]) };
        let value_of = if r.one_in(4) { r.octet() } else { r.of(&[0, 1, 2, 3, 4, 5, 6, 7, 8, 9, 10, 11, 254, 255]) };
        value.extend_from_slice(&[kind, value_of]);
    }
    if r.one_in(20) {
        value.truncate(r.below(value.len() + 1));
    }
    value
}

/// The value of sub-TLV 26.
fn mpls_capability(r: &mut Random) -> Vec<u8> {
    let mut value = r.octets(4);
    value[2] &= r.of(&[0xfe, 0xfe, 0xff, 3, 2]);
    value[3] = r.of(&[0, 1, 2, 3, 4, 10, 255, value[3], value[3]]);
    if r.one_in(16) {
        let size = r.below(9);
        value.resize(size, 1);
    }
    value
}

fn setup(r: &mut Random) -> Vec<u8> {
    let mut value = r.octets(3);
    let count = if r.one_in(50) { r.below(256) } else { r.below(7) };
    value.push(count as u8);
    let mut types: Vec<u8> = (0..count).map(|_| r.of(&[0, 0, 2, 4])).collect();
    for (form, rare) in [(3, 5), (1, 3)] {
        if count > 0 && !r.one_in(rare) {
            let at = r.below(count);
            types[at] = form;
        }
    }
    types.resize(count.div_ceil(4) * 4, r.of(&[0, 0, 3, 1]));
    value.extend_from_slice(&types);
    let mut last = 0;
    for _ in 0..r.of(&[0, 1, 2, 2, 2, 3]) {
        let kind = if r.one_in(8) { r.of(&[0, 34, 28, 0x1a00, 0x1b00]) } else { r.of(&[26, 27]) };
        let inner = match kind {
            26 => mpls_capability(r),
            27 => capability(r),
            _ if r.one_in(2) => capability(r),
            _ => r.octets(5),
        };
        last = (4 - inner.len() % 4) % 4;
        let fill = r.octet();
        value.extend_from_slice(&item(kind, &inner, || fill));
    }
    if !r.one_in(3) {
        let cut = r.below(last + 1);
        value.truncate(value.len() - cut);
    }
    value
}

/// An OPEN object that keeps the outer rules.
pub fn open(r: &mut Random) -> Vec<u8> {
    let mut octets = vec![1, 0x10 | r.octet() & 15, 0, 0, 0x20 | r.octet() & 31, r.octet(), r.octet(), r.octet()];
    let before = r.of(&[0, 0, 0, 1, 2]);
    for _ in 0..before {
        let size = r.below(9);
        // 26 stands here in boxes older than RFC 8664, and counts for nothing
        let kind = r.of(&[0, 9, 35, 26, 27, 0x2200]);
        let value = if kind == 26 { mpls_capability(r) } else { r.octets(size) };
        octets.extend_from_slice(&item(kind, &value, || 0));
    }
    if !r.one_in(12) {
        let value = setup(r);
        let fill = r.octet();
        octets.extend_from_slice(&item(34, &value, || fill));
    }
    if r.one_in(4) {
        let value = if r.one_in(2) { setup(r) } else { r.octets(7) };
        octets.extend_from_slice(&item(r.of(&[34, 34, 16]), &value, || 0));
    }
    seal(&mut octets);
    octets
}

/// A subobject of a form; one in `faults` has something wrong with it.
fn subobject(r: &mut Random, form: Form, ero: bool, faults: usize) -> Vec<u8> {
    match form {
        Form::Srv6 => srv6_subobject(r, ero, faults),
        Form::Mpls => mpls_subobject(r, ero, faults),
    }
}

/// A label, TC, S and TTL, good but for one in `faults`.
fn entry(r: &mut Random, faults: usize) -> [u8; 4] {
    let label = if r.one_in(faults) { r.below(18) } else { r.of(&[7, 16, 17, 16_001, 0xf_ffff, 16 + (1 << 19), 0x10000]) };
    let ttl = if r.one_in(faults) { 0 } else { 1 + r.below(255) };
    ((label << 12 | r.below(16) << 8 | ttl) as u32).to_be_bytes()
}

fn mpls_subobject(r: &mut Random, ero: bool, faults: usize) -> Vec<u8> {
    let nt = r.of(&[0u8, 0, 1, 2, 3, 4, 5, 6]);
    let mut s = nt != 0 && r.one_in(4);
    let mut f = nt == 0;
    let (mut m, mut c) = if s { (false, false) } else { r.of(&[(false, false), (true, false), (true, false), (true, true)]) };
    let (mut kind, mut named, mut length_off) = (36u8, nt, 0i32);
    if ero && r.one_in(6) {
        kind |= 0x80;
    }
    let mut sid = if m { entry(r, usize::MAX) } else { [r.octet(), r.octet(), r.octet(), r.octet()] };
    if m && !c && r.one_in(2) {
        // as routers send them
        sid = [sid[0], sid[1], sid[2] & 0xf0, 0];
    }
    if r.one_in(faults) {
        match r.below(9) {
            0 => named = r.below(16) as u8,
            1 => (s, f) = (true, true),
            2 => f = !f,
            3 => length_off = r.of(&[-16, -8, -4, 4, 8, 16, 1, 2]),
            4 => sid = entry(r, 2),
            5 => (m, c, sid) = (true, true, entry(r, 2)),
            6 => kind = r.of(&[1, 2, 32, 35, 37, 40, 0xa8, 0xa4]),
            7 => (m, c) = (r.one_in(2), r.one_in(2)),
            _ => s = true,
        }
    }
    let ignored = r.of(&[0, 0, 0xe0, 0xff]);
    let flags = m as u8 | (c as u8) << 1 | (s as u8) << 2 | (f as u8) << 3 | (r.one_in(4) as u8) << 4 | r.octet() & ignored & 0xe0;
    let mut octets = vec![kind, 0, named << 4 | r.octet() & ignored & 15, flags];
    if !s {
        octets.extend_from_slice(&sid);
    }
    let nai = [0, 4, 16, 8, 32, 16, 40][nt as usize];
    octets.extend_from_slice(&r.octets(nai));
    // one bit alone that ought to be 0
    if r.one_in(8) {
        let (at, unassigned) = r.of(&[(2, 0x0f), (3, 0xe0)]);
        octets[at] |= (1u8 << r.below(8)) & unassigned;
    }
    octets[1] = (octets.len() as i32 + length_off) as u8;
    if length_off != 0 && r.one_in(2) {
        octets.resize(octets[1] as usize, 0);
    }
    octets
}

fn srv6_subobject(r: &mut Random, ero: bool, faults: usize) -> Vec<u8> {
    let nt = r.of(&[0u8, 0, 2, 4, 6]);
    let mut s = nt != 0 && r.one_in(4);
    let mut f = nt == 0;
    let t = r.one_in(3);
    let (mut kind, mut named) = (40u8, nt);
    if ero && r.one_in(6) {
        kind |= 0x80;
    }
    let mut length_off = 0i32;
    let mut bits = [r.below(40) as u8, r.below(33) as u8, r.below(33) as u8, r.below(25) as u8];
    if r.one_in(faults) {
        match r.below(8) {
            0 => named = r.below(16) as u8,
            1 => (s, f) = (true, true),
            2 => f = !f,
            3 => length_off = r.of(&[-16, -8, -4, 4, 8, 16, 1, 2]),
            4 => bits = [r.octet(), r.octet(), r.octet(), r.octet()],
            5 => bits = r.of(&[[64; 4], [128, 0, 0, 0], [128, 0, 0, 1], [255, 255, 255, 255], [40, 24, 16, 48], [40, 24, 16, 49], [0, 0, 0, 129]]),
            6 => kind = r.of(&[1, 2, 32, 36, 39, 41, 0xa8, 0xa4]),
            _ => s = true,
        }
    }
    let ignored = r.of(&[0, 0, 0xf0, 0xff]);
    let flags = s as u8 | (f as u8) << 1 | (t as u8) << 2 | (r.one_in(4) as u8) << 3 | r.octet() & ignored & 0xf0;
    let mut octets = vec![kind, 0, named << 4 | r.octet() & ignored & 15, flags, r.octet() & ignored, r.octet() & ignored, r.octet(), r.octet()];
    if !s {
        octets.extend_from_slice(&r.octets(16));
    }
    let nai = match nt {
        0 => 0,
        2 => 16,
        4 => 32,
        _ => 40,
    };
    octets.extend_from_slice(&r.octets(nai));
    if t && !s {
        octets.extend_from_slice(&bits);
        octets.extend(r.octets(4).into_iter().map(|o| o & ignored));
    }
    // one bit alone that ought to be 0
    if r.one_in(8) {
        let mut places = vec![(2, 0x0f), (3, 0xf0), (4, 0xff), (5, 0xff)];
        if t && !s {
            places.extend((octets.len() - 4..octets.len()).map(|at| (at, 0xff)));
        }
        let (at, unassigned) = r.of(&places);
        octets[at] |= (1u8 << r.below(8)) & unassigned;
    }
    octets[1] = (octets.len() as i32 + length_off) as u8;
    if length_off != 0 && r.one_in(2) {
        octets.resize(octets[1] as usize, 0);
    }
    octets
}

/// A route object of `n` subobjects of a form. Where there are faults, some routes mix the two.
pub fn route(r: &mut Random, form: Form, ero: bool, n: usize, faults: usize) -> Vec<u8> {
    let mut octets = vec![if ero { 7 } else { 8 }, 0x10 | r.octet() & 15, 0, 0];
    let mixed = faults != usize::MAX && r.one_in(30);
    for _ in 0..n {
        let form = if mixed { r.of(&[Form::Srv6, Form::Mpls]) } else { form };
        let sub = subobject(r, form, ero, faults);
        if octets.len() + sub.len() > 65_532 {
            break;
        }
        octets.extend_from_slice(&sub);
    }
    if faults != usize::MAX && r.one_in(30) {
        let mut at = 4;
        while at + 1 < octets.len() {
            octets[at] = r.of(&[1, 32, 36, 40]);
            at += (octets[at + 1] as usize).max(1);
        }
    }
    seal(&mut octets);
    octets
}

/// A good route of 65,532 octets, of 2,730 SRv6 segments or of 8,190 MPLS ones, cut or drawn out to this size; its length octets say the size as far as they can.
pub fn long_route(r: &mut Random, form: Form, ero: bool, size: usize) -> Vec<u8> {
    let mut octets = vec![if ero { 7 } else { 8 }, 0x10, 0, 0];
    match form {
        Form::Srv6 => {
            let long = r.below(2730);
            for i in 0..2730 {
                octets.extend_from_slice(&[40, if i == long { 32 } else { 24 }, 0, if i == long { 6 } else { 2 }, 0, 0, 0, 1]);
                octets.extend_from_slice(&r.octets(16));
                if i == long {
                    octets.extend_from_slice(&[40, 24, 16, 0, 0, 0, 0, 0]);
                }
            }
        }
        Form::Mpls => {
            let long = r.below(8190);
            for i in 0..8190 {
                octets.extend_from_slice(&[36, if i == long { 16 } else { 8 }, if i == long { 0x30 } else { 0 }, if i == long { 1 } else { 9 }]);
                octets.extend_from_slice(&entry(r, usize::MAX));
                if i == long {
                    octets.extend_from_slice(&r.octets(8));
                }
            }
        }
    }
    octets.resize(size, 0);
    seal(&mut octets);
    octets
}

/// An ERO that breaks no rule under an agreed session without a limit, with a body of at most `most` octets.
pub fn good_ero(r: &mut Random, form: Form, most: usize) -> Vec<u8> {
    loop {
        let n = 1 + r.below(8);
        let octets = route(r, form, true, n, usize::MAX);
        if octets.len() - 4 <= most {
            return octets;
        }
    }
}
