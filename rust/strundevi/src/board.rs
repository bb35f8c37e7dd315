//! The board of paths, with its store.

use crate::answer::{answer, Counts, Result};
use crate::form::Form;
use crate::open::Session;
use crate::raw;

pub use crate::raw::PLACES;

/// Octets of the store for a place.
pub const PLACE_OCTETS: usize = 384;

/// The least octets of a store.
pub const STORE_OCTETS: usize = PLACES * PLACE_OCTETS;

/// Keys are 1 to this.
pub const KEY_MOST: u32 = 1_048_574;

/// The last version that a board can have.
pub const VERSION_MOST: u64 = u64::MAX - 1;

const PATH: usize = 1;
const REMOVED: usize = 2;

/// A board: its record and its store, which belong together. The store is anything that has octets: `Vec<u8>`, `&mut [u8]`, an array. What it holds at the
/// start does not matter; `==` compares all of it, also what paths that are gone left there. Of a clone and its original only one may go on being followed.
///
/// Looking (`body`, `next`, `moved`, `fresh_mark`) takes the board by `&`, so any number of readers may look at once. What they are handed borrows the
/// board: copy a path's octets, and the board can be changed again.
///
/// How to follow a board:
/// 1. start empty, with `fresh_mark`;
/// 2. ask `next` with your mark;
/// 3. ask one thing at a time: an answer counts only while your mark is the one that it was asked with. Throw away one that comes late or twice;
/// 4. a path or a removal: make the change, copy a path's octets before the board is touched again, then keep the version as w (`Mark::after`);
/// 5. level: you hold what the board holds, and may set both s and w to its version (`Mark::after` does, or `Mark::level`);
/// 6. refused with 23: removals that you did not see may have been dropped; start afresh;
/// 7. refused with 24: this is not the board that you followed, or it was started anew or put back from an older copy; start afresh, and so does every other
///    follower;
/// 8. refused with 17: not you but the board is at fault; keep what you hold, change nothing, tell whoever keeps the board.
///
/// To start afresh: forget the mark, empty yourself, then take and keep the fresh mark. Whoever has a mark without the paths that went with it, or paths
/// without a mark, starts afresh.
///
/// ```
/// use std::collections::BTreeMap;
/// use strundevi::{Board, Change, Form, Session, PST_SRV6, STORE_OCTETS};
///
/// let session = Session { agreed: true, n: true, ..Session::default() };
/// let route = [7, 16, 0, 28, 40, 24, 0, 2, 0, 0, 0, 1, 32, 1, 13, 184, 0, 0, 0, 1, 0, 0, 0, 0, 0, 0, 0, 1];
/// let mut board = Board::new(vec![0; STORE_OCTETS]);
/// board.report(7, &route, &session, PST_SRV6, &[])?;
/// board.report(8, &route, &session, PST_SRV6, &[])?;
/// board.remove(7)?;
///
/// let mut held = BTreeMap::new();
/// let mut mark = board.fresh_mark();
/// loop {
///     let change = board.next(mark)?;
///     match change {
///         Change::Path { key, form, body, .. } => drop(held.insert(key, (form, body.to_vec()))),
///         Change::Removed { key, .. } => drop(held.remove(&key)),
///         Change::Level { .. } => break,
///     }
///     mark = mark.after(&change);
/// }
/// assert_eq!(held, BTreeMap::from([(8, (Form::Srv6, route[4..].to_vec()))]));
/// # Ok::<(), strundevi::Refusal>(())
/// ```
#[derive(Clone, Debug, PartialEq, Eq)]
pub struct Board<S> {
    record: raw::Record,
    store: S,
}

/// Where a follower stands. With a fresh one the follower holds nothing.
#[derive(Clone, Copy, Debug, PartialEq, Eq)]
pub struct Mark {
    pub s: u64,
    pub w: u64,
}

/// A path on the board: its form, and its octets, which are those of the ERO behind its header. To judge them again put a header of 4 octets before them.
#[derive(Clone, Copy, Debug, PartialEq, Eq)]
pub struct Path<'a> {
    pub form: Form,
    pub body: &'a [u8],
}

/// What a follower is handed. The octets of a path are as in [`Path`].
#[derive(Clone, Copy, Debug, PartialEq, Eq)]
pub enum Change<'a> {
    Path { key: u32, version: u64, form: Form, body: &'a [u8] },
    Removed { key: u32, version: u64 },
    Level { version: u64 },
}

impl<S: AsRef<[u8]> + AsMut<[u8]>> Board<S> {
    /// The empty board over this store. A store of fewer than `STORE_OCTETS` octets is refused with 17 by every call but `fresh_mark`; by `report` with 28,
    /// where the addresses are not usable.
    ///
    /// An old mark may fit a board that was started anew, or put back from an older copy, and its follower would keep paths that are withdrawn: whoever does
    /// either sees to it that every follower empties itself and takes a fresh mark, and that who remembers a version for `moved` counts every range as moved.
    pub fn new(store: S) -> Board<S> {
        let mut record = raw::Record {
            keys: [0; PLACES],
            versions: [0; PLACES],
            lengths: [0; PLACES],
            version: 0,
            floor: 0,
            order: [0; PLACES],
            tops: [0; PLACES / 8],
            forms: [0; PLACES],
        };
        raw::empty(&mut record);
        Board { record, store }
    }

    /// A board of the caller's, as `into_parts` gave it. A record that is not proper is refused as a short store is (`new`).
    ///
    /// An older copy rewinds the board, and is proper, so that no number tells: every follower then empties itself and takes a fresh mark.
    pub fn from_parts(record: raw::Record, store: S) -> Board<S> {
        Board { record, store }
    }

    /// The record and the store, to be put together again by `from_parts`. The record is in the machine's own order and layout: not for sending.
    pub fn into_parts(self) -> (raw::Record, S) {
        (self.record, self.store)
    }

    /// The record: what stands at each place.
    pub fn record(&self) -> &raw::Record {
        &self.record
    }

    /// The store: the octets of place i begin at `PLACE_OCTETS` times i.
    pub fn store(&self) -> &[u8] {
        self.store.as_ref()
    }

    /// The version: each accepted report or removal raised it by 1.
    pub fn version(&self) -> u64 {
        self.record.version
    }

    /// The floor: removals up to this version may have been dropped.
    pub fn floor(&self) -> u64 {
        self.record.floor
    }

    /// Reports a path, whose form is that of its setup type, by its whole ERO: the number of its segments, and of those that are stray. Refused with 28, 17, 18,
    /// the route's numbers, 19, 20, 21. The addresses are the head end's, as in `judge`.
    #[inline]
    pub fn report(&mut self, key: u32, ero: &[u8], session: &Session, pst: u64, addresses: &[u8]) -> Result<Counts> {
        raw::report(&mut self.record, self.store.as_mut(), key.into(), ero, session.raw(), pst, addresses).counts()
    }

    /// Removes a path; a mark of the removal stays. Refused with 17, 18, 22, 20.
    #[inline]
    pub fn remove(&mut self, key: u32) -> Result<()> {
        raw::remove(&mut self.record, self.store.as_ref(), key.into()).counts().map(|_| ())
    }

    /// Drops the marks of removals with a version of at most `c`, and raises the floor to `c` if it is lower: a follower whose mark is below the floor, and
    /// who asks `moved` about a version below it, gets 23. Refused with 17, 24.
    #[inline]
    pub fn compact(&mut self, c: u64) -> Result<()> {
        raw::compact(&mut self.record, self.store.as_ref(), c).counts().map(|_| ())
    }

    /// A key's path. Refused with 17, 18, 22.
    #[inline]
    pub fn body(&self, key: u32) -> Result<Path<'_>> {
        let store = self.store.as_ref();
        let r = raw::body(&self.record, store, key.into());
        answer(r.number, || Path { form: Form::of(r.form as u64), body: &store[r.start..][..r.length] })
    }

    /// What a follower with this mark is handed. Refused with 17, 24, 23.
    #[inline]
    pub fn next(&self, mark: Mark) -> Result<Change<'_>> {
        let store = self.store.as_ref();
        let r = raw::next(&self.record, store, mark.s, mark.w);
        answer(r.number, || match r.kind {
            PATH => {
                let body = &store[r.place * PLACE_OCTETS..][..r.length];
                Change::Path { key: r.key as u32, version: r.version, form: Form::of(r.form as u64), body }
            }
            REMOVED => Change::Removed { key: r.key as u32, version: r.version },
            _ => Change::Level { version: r.version },
        })
    }

    /// Whether a key of this range changed after version `v`: was reported, reported again or removed. Refused with 17, 24, 23. Read the board's version before
    /// anyone can change the board again, and remember it with the answer, for the next time; begin with that of a time when you looked at every key. After 23 or
    /// 24 count the range as moved.
    #[inline]
    pub fn moved(&self, keys: core::ops::RangeInclusive<u64>, v: u64) -> Result<bool> {
        raw::moved(&self.record, self.store.as_ref(), *keys.start(), *keys.end(), v).counts().map(|counts| counts.segments == 1)
    }

    /// The mark of a follower that begins, and holds nothing.
    pub fn fresh_mark(&self) -> Mark {
        let r = raw::fresh_mark(self.record.version);
        Mark { s: r.s, w: r.w }
    }
}

impl Mark {
    /// The mark after this answer: w is the version of the change made; level sets both.
    pub fn after(self, change: &Change) -> Mark {
        match *change {
            Change::Path { version, .. } | Change::Removed { version, .. } => Mark { w: version, ..self },
            Change::Level { version } => Mark::level(version),
        }
    }

    /// The mark of a follower that was told it is level with a board of this version.
    pub fn level(version: u64) -> Mark {
        Mark { s: version, w: version }
    }
}
