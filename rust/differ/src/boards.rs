//! Histories of a board kept by both sides: reports, removals, compactions, followers that come and go, and records that are no boards.

use crate::doors::{self, Door, DOORS};
use crate::objects;
use crate::octets::{damage, hex};
use crate::plain;
use crate::random::Random;
use crate::reading::{some_addresses, some_form, some_pst, some_session};
use crate::tally::{Call, Tally};
use reference::{Board, Change, Form, Mpls, Session, PLACES, PLACE_OCTETS, STORE_OCTETS};
use std::collections::BTreeMap;
use strundevi::raw;

#[derive(Clone, Debug)]
enum Step {
    Report { key: u64, ero: Vec<u8>, session: Session, pst: u64, addresses: Vec<u8> },
    Remove { key: u64 },
    Compact { c: u64 },
    Body { key: u64 },
    Next { s: u64, w: u64 },
    Moved { a: u64, b: u64, v: u64 },
    FreshMark,
    /// The board is started anew.
    Empty,
    /// The record gets another number at this place of one of its parts, with the order and the tops of what it then holds or with those that it had.
    Set { part: usize, at: usize, value: u64, ordered: bool },
    /// Two numbers of the record's order change places.
    Swap { at: usize, other: usize },
    /// The record becomes this one.
    Put { board: Box<Board> },
    /// From here on the store is lent without its last octets.
    Lend { size: usize },
}

struct Pair {
    theirs: Board,
    their_store: Vec<u8>,
    ours: raw::Record,
    our_store: Vec<u8>,
    size: usize,
}

fn record(b: &Board) -> raw::Record {
    raw::Record { keys: b.keys, versions: b.versions, lengths: b.lengths, version: b.version, floor: b.floor, order: b.order(), tops: b.tops(), forms: b.forms }
}

/// The record's numbers, a line for the board and one for each place in use.
fn numbers(b: &raw::Record) -> Vec<String> {
    let used = (0..PLACES).filter(|&i| (b.keys[i], b.versions[i], b.lengths[i], b.forms[i]) != (0, 0, 0, 0));
    let places = used.map(|i| format!("place {i}: key {} version {} length {} form {}", b.keys[i], b.versions[i], b.lengths[i], b.forms[i]));
    let order: Vec<&u8> = b.order.iter().collect();
    let ends = order.len() - order.iter().rev().take_while(|&&&n| n == 0).count();
    [format!("version {} floor {}", b.version, b.floor), format!("order {:?}", &order[..ends]), format!("tops {:?}", b.tops)].into_iter().chain(places).collect()
}

fn only_left(name: &str, left: &[String], right: &[String]) -> String {
    left.iter().filter(|line| !right.contains(line)).map(|line| format!("{name} {line}\n")).collect()
}

/// Number, kind of change, key, version, place, length, form.
type Handed = (usize, usize, u64, u64, usize, usize, usize);

fn handed(answer: &reference::Answer<Change>) -> Handed {
    match *answer {
        Ok(Change::Path { key, version, form, place, length }) => (0, 1, key.into(), version, place, length, form.into()),
        Ok(Change::Removed { key, version }) => (0, 2, key.into(), version, 0, 0, 0),
        Ok(Change::Level { version }) => (0, 3, 0, version, 0, 0, 0),
        Err(refusal) => (refusal.number as usize, 0, 0, 0, 0, 0, 0),
    }
}

impl Pair {
    fn new() -> Pair {
        let store: Vec<u8> = (0..STORE_OCTETS + 8).map(|i| (i / 7) as u8).collect();
        let (keys, versions, lengths, order, tops, forms) = ([1; PLACES], [1; PLACES], [1; PLACES], [1; PLACES], [1; PLACES / 8], [1; PLACES]);
        let mut ours = raw::Record { keys, versions, lengths, version: 1, floor: 1, order, tops, forms };
        raw::empty(&mut ours);
        Pair { theirs: Board::default(), their_store: store.clone(), ours, our_store: store, size: STORE_OCTETS }
    }

    /// One step on both sides: call and number, or what differs.
    fn step(&mut self, door: Door, step: &Step) -> Result<Option<(Call, usize)>, String> {
        let n = self.size;
        // the reference keeps no rows: where the record's are others, each call must answer 17 and leave everything as it was
        let (order, tops) = (self.ours.order, self.ours.tops);
        let lied = order != self.theirs.order() || tops != self.theirs.tops();
        let size = if lied { 0 } else { n };
        let (call, ours, theirs) = match step {
            Step::Report { key, ero, session, pst, addresses } => {
                let answer = self.theirs.report(&mut self.their_store[..size], *key, ero, session, *pst, addresses);
                let ours = doors::report(door, &mut self.ours, &mut self.our_store[..n], *key, ero, session, *pst, addresses);
                (Call::Report.of(*pst), plain::ours(ours), plain::their_counts(&answer))
            }
            Step::Remove { key } => {
                let answer = self.theirs.remove(&self.their_store[..size], *key);
                (Call::Remove, plain::ours(doors::remove(door, &mut self.ours, &mut self.our_store[..n], *key)), plain::theirs(&answer, |_| 0))
            }
            Step::Compact { c } => {
                let answer = self.theirs.compact(&self.their_store[..size], *c);
                (Call::Compact, plain::ours(doors::compact(door, &mut self.ours, &mut self.our_store[..n], *c)), plain::theirs(&answer, |_| 0))
            }
            Step::Body { key } => {
                let answer = self.theirs.body(&self.their_store[..size], *key);
                let start = |body: &[u8]| body.as_ptr() as usize - self.their_store.as_ptr() as usize;
                let theirs = answer.map_or_else(|e| (e.number as usize, 0, 0, 0), |(form, body)| (0, start(body), body.len(), form.into()));
                let part = doors::body(door, &mut self.ours, &mut self.our_store[..n], *key);
                (Call::Body, (part.number, part.start, part.length, part.form), theirs)
            }
            Step::Next { s, w } => {
                let theirs = handed(&self.theirs.next(&self.their_store[..size], *s, *w));
                let (r, mark) = doors::next(door, &mut self.ours, &mut self.our_store[..n], *s, *w);
                let ours = (r.number, r.kind, r.key, r.version, r.place, r.length, r.form);
                let expected = match theirs {
                    (0, 3, _, version, ..) => (version, version),
                    (0, _, _, version, ..) => (*s, version),
                    _ => (*s, *w),
                };
                if mark.is_some_and(|mark| mark != expected) {
                    return Err(format!("the mark after {ours:?}\nlibrary   {mark:?}\nexpected  {expected:?}"));
                }
                if ours != theirs {
                    return Err(format!("library   {ours:?}\nreference {theirs:?} (number, kind, key, version, place, length, form)"));
                }
                (Call::Next, (ours.0, 0, 0, 0), (theirs.0, 0, 0, 0))
            }
            Step::Moved { a, b, v } => {
                let answer = self.theirs.moved(&self.their_store[..size], *a, *b, *v);
                let ours = doors::moved(door, &mut self.ours, &mut self.our_store[..n], *a, *b, *v);
                (Call::Moved, plain::ours(ours), plain::theirs(&answer, |&moved| moved as usize))
            }
            Step::FreshMark => {
                let (ours, theirs) = (doors::fresh_mark(door, &mut self.ours, &mut self.our_store[..n]), self.theirs.fresh_mark());
                (Call::FreshMark, (0, ours.0 as usize, ours.1 as usize, 0), (0, theirs.0 as usize, theirs.1 as usize, 0))
            }
            Step::Empty => {
                self.theirs = Board::default();
                doors::empty(door, &mut self.ours, &mut self.our_store[..n]);
                (Call::Empty, (0, 0, 0, 0), (0, 0, 0, 0))
            }
            Step::Set { part: 5, at, value, .. } => {
                self.ours.order[*at] = *value as u8;
                return Ok(None);
            }
            Step::Set { part: 6, at, value, .. } => {
                self.ours.tops[*at / 8] = *value;
                return Ok(None);
            }
            Step::Set { part, at, value, ordered } => {
                match part {
                    0 => self.theirs.keys[*at] = *value as u32,
                    1 => self.theirs.versions[*at] = *value,
                    2 => self.theirs.lengths[*at] = *value as u16,
                    7 => self.theirs.forms[*at] = *value as u8,
                    3 => self.theirs.version = *value,
                    _ => self.theirs.floor = *value,
                }
                self.ours = record(&self.theirs);
                if !ordered {
                    (self.ours.order, self.ours.tops) = (order, tops);
                }
                return Ok(None);
            }
            Step::Swap { at, other } => {
                self.ours.order.swap(*at, *other);
                return Ok(None);
            }
            Step::Put { board } => {
                self.theirs = **board;
                self.ours = record(board);
                return Ok(None);
            }
            Step::Lend { size } => {
                self.size = *size;
                return Ok(None);
            }
        };
        if ours != theirs {
            return Err(format!("library   {ours:?}\nreference {theirs:?} (number, place or start, count or length, stray or form)"));
        }
        let mut expected = record(&self.theirs);
        if lied && !matches!(step, Step::Empty) {
            (expected.order, expected.tops) = (order, tops);
        }
        if self.ours != expected {
            let (ours, theirs) = (numbers(&self.ours), numbers(&expected));
            return Err(format!("the records differ\n{}", only_left("library  ", &ours, &theirs) + &only_left("reference", &theirs, &ours)));
        }
        if self.our_store != self.their_store {
            let at = self.our_store.iter().zip(&self.their_store).position(|(a, b)| a != b).unwrap();
            return Err(format!("octet {at} of the store\nlibrary   {:02X}\nreference {:02X}", self.our_store[at], self.their_store[at]));
        }
        Ok(Some((call, theirs.0)))
    }
}

fn run(steps: &[(Door, Step)]) -> Option<String> {
    let mut pair = Pair::new();
    steps.iter().find_map(|(door, step)| pair.step(*door, step).err())
}

/// The fewest steps found that still differ.
fn shown(mut steps: Vec<(Door, Step)>) -> String {
    let mut size = steps.len().div_ceil(2);
    while size > 0 {
        let mut at = 0;
        while at < steps.len() {
            let mut fewer = steps.clone();
            fewer.drain(at..(at + size).min(steps.len()));
            if run(&fewer).is_some() {
                steps = fewer;
            } else {
                at += size;
            }
        }
        size /= 2;
    }
    simplify(&mut steps);
    let list: String = steps
        .iter()
        .map(|(door, step)| match step {
            Step::Report { key, ero, session, pst, addresses } => {
                format!("{door:?}: report {key} {pst} {} under {session:?}, addresses {}\n", hex(ero), hex(addresses))
            }
            Step::Put { board } => numbers(&record(board)).iter().map(|line| format!("  {line}\n")).collect(),
            other => format!("{door:?}: {other:?}\n"),
        })
        .collect();
    format!("a board\n{list}{}", run(&steps).unwrap_or_default())
}

/// The shortest route for each report, and the fewest places of a record, that still differ.
fn simplify(steps: &mut [(Door, Step)]) {
    let short = [7, 0x10, 0, 28, 40, 24, 0, 2].into_iter().chain([0; 20]).collect::<Vec<u8>>();
    let label = vec![7, 0x10, 0, 12, 36, 8, 0, 9, 3, 0xe8, 0x10, 0];
    for at in 0..steps.len() {
        let held = steps[at].clone();
        match &mut steps[at].1 {
            Step::Report { ero, pst, .. } => *ero = if *pst == 1 { label.clone() } else { short.clone() },
            Step::Put { .. } => {
                for i in 0..PLACES {
                    let held = steps[at].clone();
                    if let Step::Put { board } = &mut steps[at].1 {
                        (board.keys[i], board.versions[i], board.lengths[i], board.forms[i]) = (0, 0, 0, 0);
                    }
                    if run(steps).is_none() {
                        steps[at] = held;
                    }
                }
                continue;
            }
            _ => continue,
        }
        if run(steps).is_none() {
            steps[at] = held;
        }
    }
}

/// A follower, what it holds, and whether its answers are lost now and then.
struct Follower {
    s: u64,
    w: u64,
    held: BTreeMap<u32, (u8, Vec<u8>)>,
    forgetful: bool,
}

impl Follower {
    fn fresh(board: &Board) -> Follower {
        let (s, w) = board.fresh_mark();
        Follower { s, w, held: BTreeMap::new(), forgetful: false }
    }

    /// Takes what it was handed. When level it must hold what the board holds.
    fn take(&mut self, change: &Change, pair: &Pair) -> Result<(), String> {
        match *change {
            Change::Path { key, version, form, place, length } => {
                let start = place * PLACE_OCTETS;
                self.held.insert(key, (form, pair.our_store[start..start + length].to_vec()));
                self.w = version;
            }
            Change::Removed { key, version } => {
                self.held.remove(&key);
                self.w = version;
            }
            Change::Level { version } => {
                let b = &pair.theirs;
                let paths = (0..PLACES).filter(|&i| b.lengths[i] != 0);
                let body = |i: usize| pair.our_store[i * PLACE_OCTETS..][..b.lengths[i] as usize].to_vec();
                let board: BTreeMap<u32, (u8, Vec<u8>)> = paths.map(|i| (b.keys[i], (pair.ours.forms[i], body(i)))).collect();
                if board != self.held {
                    return Err(format!("a follower is level at {version} and does not hold what the board holds"));
                }
                (self.s, self.w) = (version, version);
            }
        }
        Ok(())
    }
}

/// A board that is proper, or nearly.
fn some_board(r: &mut Random) -> Board {
    let mut b = Board::default();
    let top = match r.below(4) {
        0 => 128 + r.below(100) as u64,
        1 => u64::MAX - 1 - r.below(4) as u64,
        _ => (r.next() >> r.below(56)).max(300) - 1,
    };
    b.version = top.min(u64::MAX - 1);
    b.floor = b.version - (r.below(140) as u64).min(b.version);
    let stride = r.of(&[1u32, 1, 256, 65_536, 7919]);
    let mut version = b.version;
    let filled = r.of(&[0, 1, 40, 127, 128, 128]);
    for i in 0..filled {
        let at = if stride == 7919 { i * 77 % PLACES } else { i };
        b.keys[at] = 1 + (i as u32).wrapping_mul(stride) % 1_048_574;
        b.versions[at] = version;
        (b.forms[at], b.lengths[at]) = match r.of(&[Form::Srv6, Form::Mpls]) {
            _ if version > b.floor && r.one_in(3) => (0, 0),
            Form::Srv6 => (3, 24 + 4 * r.below(91) as u16),
            Form::Mpls => (1, 8 + 4 * r.below(95) as u16),
        };
        version -= 1 + r.below(2) as u64 * u64::from(version > 1000);
        if version == 0 {
            break;
        }
    }
    // distinct keys also where the stride wraps round
    for i in 0..PLACES {
        while b.keys[i] != 0 && b.keys[..i].contains(&b.keys[i]) {
            b.keys[i] = 1 + r.below(1_048_574) as u32;
        }
    }
    b
}

fn some_set(r: &mut Random, b: &Board) -> Step {
    if r.one_in(8) {
        let at = r.below(PLACES);
        return Step::Swap { at, other: (at + r.of(&[0, 1, 1, 2, 64])) % PLACES };
    }
    let (part, at, other) = (r.below(8), r.below(PLACES), r.below(PLACES));
    let value = match part {
        0 => r.of(&[0, 1, 1_048_574, 1_048_575, u64::from(u32::MAX), u64::from(b.keys[other])]),
        1 => r.of(&[0, 1, b.version, b.version.wrapping_add(1), b.floor, b.floor + 1, b.versions[other], u64::MAX]),
        2 => r.of(&[0, 4, 8, 10, 12, 20, 22, 24, 25, 380, 384, 386, 388, 65_535]),
        7 => r.of(&[0, 1, 2, 3, 4, 255, u64::from(b.forms[other])]),
        3 => r.of(&[0, b.version.wrapping_sub(1), b.floor, b.floor.wrapping_sub(1), u64::MAX, u64::MAX - 1, b.versions[other]]),
        4 => r.of(&[0, b.version, b.version.wrapping_add(1), b.versions[at], b.versions[other], u64::MAX]),
        6 => {
            let tops = b.tops();
            r.of(&[0, b.version, b.versions[at], b.versions[other], tops[at / 8], tops[at / 8].wrapping_add(1), tops[at / 8].wrapping_sub(1), tops[other / 8], u64::MAX])
        }
        _ => {
            let order = b.order();
            let (near, far) = (order[(at + 1) % PLACES], order[other]);
            r.of(&[0, 1, 128, 129, 255, u64::from(order[at]), u64::from(near), u64::from(far), at as u64, other as u64 + 1])
        }
    };
    Step::Set { part, at, value, ordered: r.one_in(2) }
}

struct History {
    pair: Pair,
    steps: Vec<(Door, Step)>,
    calls: usize,
}

impl History {
    fn step(&mut self, tally: &mut Tally, r: &mut Random, step: Step) -> Result<(), String> {
        let door = r.of(&DOORS);
        let floor = self.pair.theirs.floor;
        let answer = self.pair.step(door, &step);
        self.steps.push((door, step));
        match answer {
            Ok(Some((call, number))) => {
                tally.count(door, call, number);
                tally.evictions += u64::from(matches!(call, Call::Report | Call::MplsReport) && self.pair.theirs.floor != floor);
                self.calls += 1;
                Ok(())
            }
            Ok(None) => Ok(()),
            Err(_) => Err(shown(std::mem::take(&mut self.steps))),
        }
    }
}

fn some_key(r: &mut Random, keys: usize) -> u64 {
    match r.below(60) {
        0 => r.of(&[0, 1_048_575, 1_048_574, 1 << 32, (1 << 32) + 1, u64::MAX]),
        1 => r.number(),
        _ => 1 + (r.below(keys) as u64 * 8191) % 1_048_574,
    }
}

fn some_moved(r: &mut Random, b: &Board, keys: usize) -> Step {
    let from = some_key(r, keys);
    let to = match r.below(5) {
        0 => from,
        1 => from.wrapping_add(r.below(9000) as u64),
        2 => some_key(r, keys),
        3 => u64::MAX,
        _ => from.wrapping_sub(1),
    };
    let from = if r.one_in(6) { 0 } else { from };
    let at = r.below(PLACES);
    let v = match r.below(6) {
        0 => b.version.wrapping_add(r.below(3) as u64).wrapping_sub(1),
        1 => b.floor.wrapping_add(r.below(3) as u64).wrapping_sub(1),
        2 => b.versions[at],
        3 => b.tops()[at / 8],
        4 => b.versions[at].wrapping_sub(1),
        _ => b.version - (r.below(40) as u64).min(b.version),
    };
    Step::Moved { a: from, b: to, v }
}

/// A board's life from the empty start.
fn life(tally: &mut Tally, r: &mut Random, most: usize) -> Result<usize, String> {
    let keys = r.of(&[3, 20, 125, 140, 300]);
    let removals = r.of(&[2, 4, 12]);
    let agreed = Session { agreed: true, n: true, mpls: Some(Mpls { n: true, limit: None }), ..Session::default() };
    let mut h = History { pair: Pair::new(), steps: Vec::new(), calls: 0 };
    let mut followers: Vec<Follower> = Vec::new();
    while h.calls < most {
        match r.below(24) {
            0..=9 => {
                let key = some_key(r, keys);
                let form = some_form(r);
                let mut ero = objects::good_ero(r, form, PLACE_OCTETS);
                if r.one_in(40) {
                    let n = if form == Form::Srv6 { 8 + r.below(8) } else { 20 + r.below(30) };
                    ero = objects::route(r, form, true, n, usize::MAX);
                }
                let (mut session, mut pst) = (agreed, form.pst().into());
                if r.one_in(8) {
                    damage(r, &mut ero);
                }
                if r.one_in(16) {
                    let n = 1 + r.below(4);
                    ero = objects::route(r, form, true, n, 2);
                }
                if r.one_in(12) {
                    (session, pst) = (some_session(r), some_pst(r, form));
                    if r.one_in(2) {
                        let n = r.below(6);
                        ero = objects::route(r, form, true, n, 3);
                    }
                }
                let addresses = some_addresses(r, &ero, 40);
                h.step(tally, r, Step::Report { key, ero, session, pst, addresses })?;
            }
            10..=13 if !r.one_in(removals) => {
                let key = some_key(r, keys);
                h.step(tally, r, Step::Remove { key })?;
            }
            14 if r.one_in(5) => {
                let version = h.pair.theirs.version;
                let c = match r.below(3) {
                    0 => version.wrapping_add(r.below(3) as u64).wrapping_sub(1),
                    1 => r.number(),
                    _ => version - (r.below(40) as u64).min(version),
                };
                h.step(tally, r, Step::Compact { c })?;
            }
            15 | 16 => {
                let key = some_key(r, keys);
                h.step(tally, r, Step::Body { key })?;
            }
            17 if followers.len() < 4 => {
                h.step(tally, r, Step::FreshMark)?;
                let mut follower = Follower::fresh(&h.pair.theirs);
                follower.forgetful = r.one_in(2);
                followers.push(follower);
            }
            18 if r.one_in(30) => {
                h.step(tally, r, Step::Empty)?;
                followers.clear();
            }
            18 if r.one_in(12) && !followers.is_empty() => {
                let gone = r.below(followers.len());
                followers.swap_remove(gone);
            }
            19 => {
                let version = h.pair.theirs.version as usize;
                let mut near = || (version + 2).saturating_sub(r.below(12)) as u64;
                let (s, w) = (near(), near());
                h.step(tally, r, Step::Next { s, w })?;
            }
            22 | 23 if r.one_in(3) => {
                let step = some_moved(r, &h.pair.theirs, keys);
                h.step(tally, r, step)?;
            }
            20 if r.one_in(40) => {
                let size = r.of(&[0, 1, STORE_OCTETS - 1, STORE_OCTETS - 384]);
                h.step(tally, r, Step::Lend { size })?;
                let key = some_key(r, keys);
                let step = r.below(6);
                let form = some_form(r);
                let ero = objects::good_ero(r, form, PLACE_OCTETS);
                h.step(
                    tally,
                    r,
                    match step {
                        0 => Step::Report { key, ero, session: agreed, pst: form.pst().into(), addresses: Vec::new() },
                        1 => Step::Remove { key },
                        2 => Step::Compact { c: 0 },
                        3 => Step::Body { key },
                        4 => Step::Moved { a: key, b: key, v: 0 },
                        _ => Step::Next { s: 0, w: 0 },
                    },
                )?;
                let size = STORE_OCTETS + r.of(&[0, 0, 1, 8]);
                h.step(tally, r, Step::Lend { size })?;
            }
            _ if !followers.is_empty() => {
                let at = r.below(followers.len());
                for _ in 0..r.of(&[1, 3, 140]) {
                    let (s, w) = (followers[at].s, followers[at].w);
                    h.step(tally, r, Step::Next { s, w })?;
                    match h.pair.theirs.next(&h.pair.their_store, s, w) {
                        Ok(change) => {
                            if followers[at].forgetful && r.one_in(20) {
                                break;
                            }
                            followers[at].take(&change, &h.pair).map_err(|text| format!("{text}\n{}", shown(std::mem::take(&mut h.steps))))?;
                            if matches!(change, Change::Level { .. }) {
                                tally.level += 1;
                                break;
                            }
                        }
                        Err(_) => {
                            followers[at] = Follower::fresh(&h.pair.theirs);
                            break;
                        }
                    }
                }
            }
            _ => {}
        }
    }
    Ok(h.calls)
}

/// Records made up, and each call on them.
fn records(tally: &mut Tally, r: &mut Random) -> Result<usize, String> {
    let mut h = History { pair: Pair::new(), steps: Vec::new(), calls: 0 };
    let board = some_board(r);
    h.step(tally, r, Step::Put { board: Box::new(board) })?;
    for _ in 0..r.of(&[0, 0, 1, 1, 2]) {
        let set = some_set(r, &h.pair.theirs);
        h.step(tally, r, set)?;
    }
    let agreed = Session { agreed: true, n: true, mpls: Some(Mpls { n: true, limit: None }), ..Session::default() };
    for _ in 0..6 {
        let b = h.pair.theirs;
        let known = u64::from(b.keys[r.below(PLACES)]);
        let key = if r.one_in(3) { some_key(r, 300) } else { known };
        let near = |r: &mut Random| match r.below(4) {
            0 => b.versions[r.below(PLACES)],
            1 => b.floor.wrapping_add(r.below(3) as u64).wrapping_sub(1),
            2 => b.version.wrapping_add(r.below(3) as u64).wrapping_sub(1),
            _ => r.number(),
        };
        let form = some_form(r);
        let step = match r.below(7) {
            6 => some_moved(r, &b, 300),
            0 | 1 => {
                let ero = objects::good_ero(r, form, PLACE_OCTETS);
                Step::Report { key, ero, session: agreed, pst: form.pst().into(), addresses: Vec::new() }
            }
            2 => Step::Remove { key },
            3 => Step::Compact { c: near(r) },
            4 => Step::Body { key },
            _ => Step::Next { s: near(r), w: near(r) },
        };
        h.step(tally, r, step)?;
    }
    Ok(h.calls)
}

/// So many calls of a board.
pub fn calls(tally: &mut Tally, r: &mut Random, n: usize) -> Result<(), String> {
    let mut done = 0;
    while done < n {
        let most = r.of(&[40, 400, 3000]);
        done += life(tally, r, most)?;
        for _ in 0..200 {
            done += records(tally, r)?;
        }
    }
    Ok(())
}
