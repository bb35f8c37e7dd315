//! Octets that are damaged, and octets that are made small.

use crate::random::Random;

/// Writes the object's own length into its header.
pub fn seal(object: &mut [u8]) {
    if object.len() >= 4 {
        let size = object.len() as u16;
        object[2..4].copy_from_slice(&size.to_be_bytes());
    }
}

/// One thing wrong, somewhere; the header's length is mended half of the time.
pub fn damage(r: &mut Random, object: &mut Vec<u8>) {
    let size = object.len();
    let at = r.below(size.max(1));
    match r.below(9) {
        0 if size > 0 => object[at] ^= 1 << r.below(8),
        1 if size > 0 => object[at] = r.octet(),
        2 if size > 0 => object[at] = object[at].wrapping_add(r.of(&[1, 2, 4, 8, 16, 252, 254, 255])),
        3 => object.truncate(at),
        4 => object.extend_from_slice(&r.octets(4)[..1 + at % 4]),
        5 if size > 8 => {
            let from = at / 4 * 4;
            object.drain(from..(from + 4).min(size));
        }
        6 => {
            let from = at / 4 * 4;
            let more = r.octets(4);
            object.splice(from..from, more);
        }
        7 if size > 4 => object[4..].iter_mut().skip(at % 8).step_by(8).for_each(|o| *o = 0),
        _ => {
            let other = r.octets(4);
            let from = at / 4 * 4;
            for (i, o) in other.into_iter().enumerate() {
                if from + i < size {
                    object[from + i] = o;
                }
            }
        }
    }
    if !r.one_in(2) {
        seal(object);
    }
}

/// The smallest octets found for which `differs` still holds: parts are left out, with the header's length mended or not, and octets made 0.
pub fn shrink(mut object: Vec<u8>, differs: impl Fn(&[u8]) -> bool) -> Vec<u8> {
    let mut size = object.len();
    while size > 0 {
        let mut at = 0;
        let mut shrunk = false;
        while at + size <= object.len() {
            let mut less = object.clone();
            less.drain(at..at + size);
            let mut sealed = less.clone();
            seal(&mut sealed);
            if differs(&sealed) {
                object = sealed;
                shrunk = true;
            } else if differs(&less) {
                object = less;
                shrunk = true;
            } else {
                at += size;
            }
        }
        if !shrunk || size > object.len() {
            size /= 2;
        }
    }
    for at in 0..object.len() {
        let held = object[at];
        object[at] = 0;
        if !differs(&object) {
            object[at] = held;
        }
    }
    object
}

pub fn hex(octets: &[u8]) -> String {
    if octets.is_empty() {
        return "-".to_string();
    }
    octets.iter().map(|o| format!("{o:02X}")).collect()
}
