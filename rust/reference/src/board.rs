//! The board: 128 places, each empty or holding a key, a version and a path or the mark of a removal; the octets of the path at place i lie
//! from 384 times i in a lent store of 49,152 octets. Every accepted report or removal raises the version by 1 and bears it.
//!
//! A key of 0 is an empty place, a length of 0 at a key a removal. A call refuses with 17 a store that is too short or a record that is not
//! proper: keys in range and distinct, versions distinct and from 1 to the board's, removals above the floor, floor at most the version, that at
//! most 2^64-2, a path's form 1 or 3 and its length a multiple of 4 from 8 (form 1) or 24 (form 3) to 384, forms of removals and all numbers of empty
//! places 0.

use crate::answer::*;
use crate::form::{PST_MPLS, PST_SRV6};
use crate::route::{judge, Kind};
use crate::segment::Counts;
use crate::session::Session;

pub const PLACES: usize = 128;
pub const PLACE_OCTETS: usize = 384;
pub const STORE_OCTETS: usize = PLACES * PLACE_OCTETS;
pub const KEY_MOST: u64 = 1_048_574;
pub const VERSION_MOST: u64 = u64::MAX - 1;
pub const MPLS_BODY_LEAST: u16 = 8;
pub const SRV6_BODY_LEAST: u16 = 24;

#[derive(Clone, Copy, Debug, PartialEq, Eq)]
pub struct Board {
    pub keys: [u32; PLACES],
    pub versions: [u64; PLACES],
    pub lengths: [u16; PLACES],
    pub version: u64,
    pub floor: u64,
    /// The setup type of a place's path; 0 for a removal and an empty place.
    pub forms: [u8; PLACES],
}

/// What a follower is handed.
#[derive(Clone, Copy, Debug, PartialEq, Eq)]
pub enum Change {
    Path { key: u32, version: u64, form: u8, place: usize, length: usize },
    Removed { key: u32, version: u64 },
    Level { version: u64 },
}

impl Default for Board {
    fn default() -> Board {
        Board { keys: [0; PLACES], versions: [0; PLACES], lengths: [0; PLACES], version: 0, floor: 0, forms: [0; PLACES] }
    }
}

/// A set of numbers by open addressing, with twice the room that is ever needed; it holds the places of its numbers from 1.
struct Seen([u8; 2 * PLACES]);

impl Seen {
    /// False if the number at place `i` of `all` was there before.
    #[inline]
    fn insert<T: Copy + PartialEq>(&mut self, hash: u64, i: usize, all: &[T; PLACES]) -> bool {
        let mut slot = (hash.wrapping_mul(0x9e37_79b9_7f4a_7c15) >> 56) as usize;
        loop {
            match self.0[slot] {
                0 => {
                    self.0[slot] = i as u8 + 1;
                    return true;
                }
                held if all[held as usize - 1] == all[i] => return false,
                _ => slot = (slot + 1) % (2 * PLACES),
            }
        }
    }
}

impl Board {
    pub fn is_proper(&self) -> bool {
        if self.floor > self.version || self.version > VERSION_MOST {
            return false;
        }
        let mut keys = Seen([0; 2 * PLACES]);
        let mut versions = Seen([0; 2 * PLACES]);
        for i in 0..PLACES {
            let (key, version, length, form) = (self.keys[i], self.versions[i], self.lengths[i], self.forms[i]);
            if key == 0 {
                if version != 0 || length != 0 || form != 0 {
                    return false;
                }
                continue;
            }
            if u64::from(key) > KEY_MOST || version == 0 || version > self.version {
                return false;
            }
            if length == 0 {
                if version <= self.floor || form != 0 {
                    return false;
                }
            } else {
                let least = match u64::from(form) {
                    PST_MPLS => MPLS_BODY_LEAST,
                    PST_SRV6 => SRV6_BODY_LEAST,
                    _ => return false,
                };
                if length % 4 != 0 || length < least || length as usize > PLACE_OCTETS {
                    return false;
                }
            }
            if !keys.insert(u64::from(key), i, &self.keys) || !versions.insert(version, i, &self.versions) {
                return false;
            }
        }
        true
    }

    /// Rule 17.
    #[inline]
    fn check(&self, store: &[u8]) -> Answer<()> {
        if store.len() < STORE_OCTETS || !self.is_proper() {
            return refuse(NOT_A_BOARD);
        }
        Ok(())
    }

    #[inline]
    fn place_of(&self, key: u32) -> Option<usize> {
        self.keys.iter().position(|&k| k == key)
    }

    /// Rules 18 and 22: the place of a key's path.
    #[inline]
    fn path_of(&self, key: u64) -> Answer<usize> {
        let key = in_range(key)?;
        match self.place_of(key) {
            Some(i) if self.lengths[i] != 0 => Ok(i),
            _ => refuse(NO_PATH),
        }
    }

    /// Rule 20: the version of the next change.
    #[inline]
    fn next_version(&self) -> Answer<u64> {
        if self.version >= VERSION_MOST {
            return refuse(VERSIONS_USED_UP);
        }
        Ok(self.version + 1)
    }

    /// The number of segments of the path reported, and of those that are stray; 28 for the addresses goes before everything else.
    pub fn report(&mut self, store: &mut [u8], key: u64, ero: &[u8], session: &Session, pst: u64, addresses: &[u8]) -> Answer<Counts> {
        if addresses.len() % 16 != 0 {
            return refuse(NOT_USABLE);
        }
        self.check(store)?;
        let key = in_range(key)?;
        let counts = judge(ero, Kind::Ero, session, pst, addresses)?;
        let body = &ero[4..];
        if body.len() > PLACE_OCTETS {
            return refuse(BODY_TOO_LONG);
        }
        let version = self.next_version()?;
        let place = match self.place_of(key).or_else(|| self.place_of(0)) {
            Some(place) => place,
            None => {
                let oldest = (0..PLACES).filter(|&i| self.lengths[i] == 0).min_by_key(|&i| self.versions[i]);
                let Some(oldest) = oldest else {
                    return refuse(ALL_PATHS);
                };
                self.floor = self.versions[oldest];
                oldest
            }
        };
        let start = place * PLACE_OCTETS;
        store[start..start + body.len()].copy_from_slice(body);
        self.keys[place] = key;
        self.versions[place] = version;
        self.lengths[place] = body.len() as u16;
        self.forms[place] = pst as u8;
        self.version = version;
        Ok(counts)
    }

    pub fn remove(&mut self, store: &[u8], key: u64) -> Answer<()> {
        self.check(store)?;
        let place = self.path_of(key)?;
        let version = self.next_version()?;
        self.versions[place] = version;
        self.lengths[place] = 0;
        self.forms[place] = 0;
        self.version = version;
        Ok(())
    }

    pub fn compact(&mut self, store: &[u8], c: u64) -> Answer<()> {
        self.check(store)?;
        if c > self.version {
            return refuse(MARK_AHEAD);
        }
        for i in 0..PLACES {
            if self.lengths[i] == 0 && self.versions[i] <= c {
                self.keys[i] = 0;
                self.versions[i] = 0;
            }
        }
        self.floor = self.floor.max(c);
        Ok(())
    }

    /// The form of a key's path, and its octets.
    pub fn body<'a>(&self, store: &'a [u8], key: u64) -> Answer<(u8, &'a [u8])> {
        self.check(store)?;
        let place = self.path_of(key)?;
        let start = place * PLACE_OCTETS;
        Ok((self.forms[place], &store[start..start + self.lengths[place] as usize]))
    }

    pub fn next(&self, store: &[u8], s: u64, w: u64) -> Answer<Change> {
        self.check(store)?;
        if s > self.version || w > self.version {
            return refuse(MARK_AHEAD);
        }
        if self.floor > s.max(w) {
            return refuse(MARK_TOO_OLD);
        }
        let mut best = PLACES;
        let mut least = u64::MAX;
        for i in 0..PLACES {
            let version = self.versions[i];
            if version < least && version > w && (self.lengths[i] != 0 || version > s) {
                least = version;
                best = i;
            }
        }
        if best == PLACES {
            return Ok(Change::Level { version: self.version });
        }
        let key = self.keys[best];
        Ok(match self.lengths[best] {
            0 => Change::Removed { key, version: least },
            length => Change::Path { key, version: least, form: self.forms[best], place: best, length: length as usize },
        })
    }

    /// What a record keeps beside its table: the used places from the oldest change to the newest, each by 1 more than the place, and 0 behind
    /// them. The calls here do without it; whoever keeps it answers as they do, and 17 where it is another.
    pub fn order(&self) -> [u8; PLACES] {
        let mut used: Vec<usize> = (0..PLACES).filter(|&i| self.keys[i] != 0).collect();
        used.sort_by_key(|&i| self.versions[i]);
        let mut order = [0; PLACES];
        for (number, place) in order.iter_mut().zip(used) {
            *number = place as u8 + 1;
        }
        order
    }

    /// Whether a key from `a` to `b` changed after version `v`: a look at every place.
    pub fn moved(&self, store: &[u8], a: u64, b: u64, v: u64) -> Answer<bool> {
        self.check(store)?;
        if v > self.version {
            return refuse(MARK_AHEAD);
        }
        if self.floor > v {
            return refuse(MARK_TOO_OLD);
        }
        Ok((0..PLACES).any(|i| self.keys[i] != 0 && a <= self.keys[i].into() && u64::from(self.keys[i]) <= b && self.versions[i] > v))
    }

    /// What a record keeps beside its table too: the largest version of each 8 places, 0 where all are empty.
    pub fn tops(&self) -> [u64; PLACES / 8] {
        let mut tops = [0; PLACES / 8];
        for (top, versions) in tops.iter_mut().zip(self.versions.chunks(8)) {
            *top = versions.iter().copied().max().unwrap_or(0);
        }
        tops
    }

    /// The mark of a follower that begins, and holds nothing.
    pub fn fresh_mark(&self) -> (u64, u64) {
        (self.version, 0)
    }
}

/// Rule 18.
#[inline]
fn in_range(key: u64) -> Answer<u32> {
    if key == 0 || key > KEY_MOST {
        return refuse(KEY_OUT_OF_RANGE);
    }
    Ok(key as u32)
}
