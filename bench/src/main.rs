//! The proved library against the reference: the same duties in one run, each timed in turn, the best of several rounds.
//!
//!     bench [ROUNDS]
//!
//! A line is a duty, the nanoseconds of each side, and the library's divided by the reference's. The first table is what a box does, the second
//! how it grows with segments, with places in use and with the distance of a follower's mark. A call's content is checked before it is timed.

use std::hint::black_box;
use std::time::Instant;
use strundevi::raw;

const O: [u8; 32] = [
    0x01, 0x10, 0x00, 0x20, 0x20, 0x1E, 0x78, 0x07, 0x00, 0x22, 0x00, 0x12, 0x00, 0x00, 0x00, 0x01, 0x03, 0x00, 0x00, 0x00, 0x00, 0x1B, 0x00, 0x06, 0x00, 0x00,
    0x00, 0x00, 0x2C, 0x04, 0x00, 0x00,
];
const E: [u8; 28] = [
    0x07, 0x10, 0x00, 0x1C, 0x28, 0x18, 0x00, 0x02, 0x00, 0x00, 0x00, 0x01, 0x20, 0x01, 0x0D, 0xB8, 0x00, 0x00, 0x00, 0x01, 0x00, 0x00, 0x00, 0x00, 0x00, 0x00,
    0x00, 0x01,
];
/// O with MPLS beside SRv6: setup types 1 and 3, sub-TLV 26 with a depth of 9.
const BOTH: [u8; 40] = [
    0x01, 0x10, 0x00, 0x28, 0x20, 0x1E, 0x78, 0x07, 0x00, 0x22, 0x00, 0x1A, 0x00, 0x00, 0x00, 0x02, 0x01, 0x03, 0x00, 0x00, 0x00, 0x1A, 0x00, 0x04, 0x00, 0x00,
    0x00, 0x09, 0x00, 0x1B, 0x00, 0x06, 0x00, 0x00, 0x00, 0x00, 0x2C, 0x04, 0x00, 0x00,
];
/// Label 16001 and nothing else, as routers send it.
const LABEL: [u8; 8] = [0x24, 0x08, 0x00, 0x09, 0x03, 0xE8, 0x10, 0x00];
const SRV6: u64 = 3;
const MPLS: u64 = 1;
const PLACES: usize = 128;
const ERO: u8 = 1;
const FREE: raw::Session =
    raw::Session { agreed: 1, n: 1, a: 0, r: 0, hasv: 0, v: 0, hasm: 0, m: 0, limited: 0, mpls: 1, mplsn: 1, mplslimited: 0, limit: 0, mplslimit: 0 };
const AT: raw::Setup = raw::Setup { a: 0, r: 1 };

/// O with other pairs of MSD type and value, an even number of them.
fn open_with(pairs: &[u8]) -> Vec<u8> {
    let mut octets = O[..28].to_vec();
    octets.extend_from_slice(pairs);
    octets[11] = (octets.len() - 12) as u8;
    octets[23] = (octets.len() - 24) as u8;
    seal(octets)
}

/// A route of `n` segments like E's.
fn plain_route(n: usize) -> Vec<u8> {
    let mut octets = E[..4].to_vec();
    for _ in 0..n {
        octets.extend_from_slice(&E[4..]);
    }
    seal(octets)
}

/// The reference's session, as free as FREE.
fn free() -> reference::Session {
    reference::Session { agreed: true, n: true, mpls: Some(reference::Mpls { n: true, limit: None }), ..Default::default() }
}

/// An MPLS route of `n` labels.
fn label_route(n: usize) -> Vec<u8> {
    let mut octets = E[..4].to_vec();
    for _ in 0..n {
        octets.extend_from_slice(&LABEL);
    }
    seal(octets)
}

/// An MPLS route of `n` segments of every shape in turn: labels, whole and not, indices, names without a SID, with every NAI.
fn mixed_labels(n: usize) -> Vec<u8> {
    let mut octets = E[..4].to_vec();
    for i in 0..n {
        let (nt, flags, nai) = [(0, 9, 0), (1, 1, 4), (3, 0, 8), (5, 4, 16), (0, 11, 0), (2, 1, 16), (4, 1, 32), (6, 4, 40)][i % 8];
        let mut sub = vec![36, 4 + nai as u8, nt << 4, flags];
        if flags & 4 == 0 {
            sub[1] += 4;
            sub.extend_from_slice(&[0x03, 0xE8, 0x10, 64]);
        }
        sub.resize(sub.len() + nai, 20);
        octets.extend_from_slice(&sub);
    }
    seal(octets)
}

/// A route of `n` segments with every part in turn, none of them stray, or those with a structure.
fn mixed_route(n: usize, stray: bool) -> Vec<u8> {
    let mut octets = E[..4].to_vec();
    for i in 0..n {
        let (nt, flags, parts) = [(0, 2, 16), (2, 0, 32), (4, 4, 56), (0, 6, 24), (6, 0, 56), (2, 1, 16)][i % 6];
        let mut sub = vec![40, 8 + parts as u8, nt << 4, flags, 0, 0, 0, i as u8];
        sub.resize(8 + parts, 20);
        if flags & 4 != 0 && !stray {
            sub[4 + parts..].fill(0);
        }
        octets.extend_from_slice(&sub);
    }
    seal(octets)
}

fn seal(mut octets: Vec<u8>) -> Vec<u8> {
    let size = octets.len() as u16;
    octets[2..4].copy_from_slice(&size.to_be_bytes());
    octets
}

/// Distinct keys all over the range.
fn random_keys() -> Vec<u64> {
    let mut keys = Vec::new();
    let mut x = 1u64;
    while keys.len() < PLACES {
        x = x.wrapping_mul(6_364_136_223_846_793_005).wrapping_add(1_442_695_040_888_963_407);
        let key = 1 + (x >> 33) % 1_048_574;
        if !keys.contains(&key) {
            keys.push(key);
        }
    }
    keys
}

/// The record of a board, which keeps its places in order and the largest version of each 8.
fn record(b: &reference::Board) -> raw::Record {
    raw::Record { keys: b.keys, versions: b.versions, lengths: b.lengths, version: b.version, floor: b.floor, order: b.order(), tops: b.tops(), forms: b.forms }
}

struct Bench {
    rounds: usize,
    worst: f64,
}

impl Bench {
    /// Both sides in turn, so that what slows the machine slows both; the best round of each.
    fn time(&mut self, duty: &str, mut library: impl FnMut(usize), mut reference: impl FnMut(usize)) {
        let mut turns = 1;
        loop {
            let start = Instant::now();
            (0..turns).for_each(&mut reference);
            if start.elapsed().as_micros() >= 200 {
                break;
            }
            turns *= 2;
        }
        let mut best = [f64::MAX; 2];
        for _ in 0..self.rounds {
            for (side, least) in best.iter_mut().enumerate() {
                let start = Instant::now();
                if side == 0 {
                    (0..turns).for_each(&mut library);
                } else {
                    (0..turns).for_each(&mut reference);
                }
                *least = least.min(start.elapsed().as_nanos() as f64 / turns as f64);
            }
        }
        let ratio = best[0] / best[1];
        self.worst = self.worst.max(ratio);
        println!("{duty:<36} {:>10.1} {:>10.1} {ratio:>8.2}", best[0], best[1]);
    }

    fn title(&self, text: &str) {
        println!("{text:<36} {:>10} {:>10} {:>8}", "library ns", "Rust ns", "ratio");
    }

    fn judge(&mut self, duty: &str, route: &[u8], pst: u64) {
        let theirs = free();
        let counts = reference::judge(route, reference::Kind::Ero, &theirs, pst, &[]).unwrap();
        let ours = raw::judge(route, ERO, FREE, pst, &[]);
        assert_eq!((ours.count, ours.stray), (counts.segments, counts.stray));
        self.time(
            duty,
            |_| {
                black_box(raw::judge(black_box(route), ERO, *black_box(&FREE), pst, &[]));
            },
            |_| {
                black_box(reference::judge(black_box(route), reference::Kind::Ero, black_box(&theirs), pst, &[])).ok();
            },
        );
    }

    fn segment(&mut self, duty: &str, route: &[u8], pst: u64, i: u64) {
        let theirs = free();
        let sid = reference::segment(route, reference::Kind::Ero, &theirs, pst, &[], i).unwrap().0.sid;
        assert_eq!(raw::segment(route, ERO, FREE, pst, &[], i).segment.sid, sid);
        self.time(
            duty,
            |_| {
                black_box(raw::segment(black_box(route), ERO, *black_box(&FREE), pst, &[], black_box(i)));
            },
            |_| {
                black_box(reference::segment(black_box(route), reference::Kind::Ero, black_box(&theirs), pst, &[], black_box(i))).ok();
            },
        );
    }

    /// All segments of a route, one after the other: judged once, then stepped through.
    fn steps(&mut self, duty: &str, route: &[u8], pst: u64) {
        let theirs = free();
        let library = |route: &[u8]| {
            let count = raw::judge(route, ERO, *black_box(&FREE), pst, &[]).count;
            let mut at = strundevi::FIRST_PLACE;
            for _ in 0..count {
                let stepped = raw::step(route, ERO, pst, at);
                black_box(&stepped.segment);
                at = stepped.next;
            }
            at
        };
        let reference = |route: &[u8]| {
            let count = reference::judge(route, reference::Kind::Ero, black_box(&theirs), pst, &[]).map_or(0, |counts| counts.segments);
            let mut at = strundevi::FIRST_PLACE;
            for _ in 0..count {
                let Ok((segment, next)) = reference::step(route, reference::Kind::Ero, pst, at) else { break };
                black_box(&segment);
                at = next;
            }
            at
        };
        assert_eq!((library(route), reference(route)), (route.len(), route.len()));
        self.time(
            duty,
            |_| {
                black_box(library(black_box(route)));
            },
            |_| {
                black_box(reference(black_box(route)));
            },
        );
    }

    /// Writing `n` segments that are a SID and nothing else, or have every part.
    fn write(&mut self, duty: &str, n: usize, whole: bool) {
        let mut sid = [0; 16];
        sid.copy_from_slice(&E[12..]);
        let mut segment = reference::Segment { behaviour: 1, has_sid: true, sid, ..reference::Segment::default() };
        if whole {
            segment = reference::Segment { nt: 6, nai: [7; 40], structured: true, structure: [40, 24, 16, 48], ..segment };
        }
        self.write_segments(duty, n, &segment, SRV6);
    }

    /// Writing `n` labels and nothing else, or labels with TC, S, TTL and the longest NAI.
    fn write_labels(&mut self, duty: &str, n: usize, whole: bool) {
        let mut sid = [0; 16];
        sid[..4].copy_from_slice(&LABEL[4..]);
        let mut segment = reference::Segment { has_sid: true, labelled: true, sid, ..reference::Segment::default() };
        if whole {
            segment = reference::Segment { nt: 6, nai: [7; 40], complete: true, ..segment };
            segment.sid[3] = 64;
        }
        self.write_segments(duty, n, &segment, MPLS);
    }

    fn write_segments(&mut self, duty: &str, n: usize, other: &reference::Segment, pst: u64) {
        let mut ours = vec![0u8; 8192];
        let mut theirs = vec![0u8; 8192];
        let segment = raw::Segment {
            loose: 0,
            verify: 0,
            nt: other.nt,
            behaviour: other.behaviour,
            hassid: other.has_sid as u8,
            sid: other.sid,
            nai: other.nai,
            structured: other.structured as u8,
            structure: other.structure,
            labelled: other.labelled as u8,
            complete: other.complete as u8,
        };
        let library = |buffer: &mut [u8]| {
            let mut writer = raw::begin(buffer, raw::Writer { ero: ERO, form: 0, at: 0 }, ERO, pst).writer;
            for _ in 0..n {
                let written = raw::add(buffer, writer, black_box(&segment));
                assert_eq!(written.verdict.number, 0);
                writer = written.writer;
            }
            raw::finish(buffer, writer).writer.at
        };
        let reference = |buffer: &mut [u8]| {
            let mut writer = reference::Writer::begin(buffer, reference::Kind::Ero, pst).unwrap();
            for _ in 0..n {
                writer = writer.add(buffer, black_box(other)).unwrap();
            }
            writer.finish(buffer).unwrap().at
        };
        assert_eq!(library(&mut ours), reference(&mut theirs));
        assert_eq!(ours, theirs);
        self.time(
            duty,
            |_| {
                black_box(library(black_box(&mut ours)));
            },
            |_| {
                black_box(reference(black_box(&mut theirs)));
            },
        );
    }

    /// Reports of MPLS paths on a full board of them.
    fn report_labels(&mut self) {
        let (other, ero, keys) = (free(), label_route(4), random_keys());
        let mut bs = vec![0; reference::STORE_OCTETS];
        let mut b = reference::Board::default();
        for &key in &keys {
            b.report(&mut bs, key, &ero, &other, MPLS, &[]).unwrap();
        }
        let (mut r, mut rs) = (record(&b), bs.clone());
        let key = |turn: usize| keys[turn * 37 % PLACES];
        self.time(
            "report of MPLS, full board",
            |turn| {
                assert_eq!(raw::report(black_box(&mut r), &mut rs, key(turn), black_box(&ero), FREE, MPLS, &[]).number, 0);
            },
            |turn| {
                assert!(black_box(&mut b).report(&mut bs, key(turn), black_box(&ero), &other, MPLS, &[]).is_ok());
            },
        );
    }

    /// Board calls with `used` places in use, all of them paths; keys and marks change from turn to turn. Keys one after another spread evenly
    /// over any hash, keys at random do not.
    fn board(&mut self, used: usize, name: &str, keys: &[u64]) {
        let other = free();
        let ero = plain_route(4);
        let key = |turn: usize| keys[turn * 37 % used];
        let mut store = vec![0; reference::STORE_OCTETS];
        let mut board = reference::Board::default();
        for &key in &keys[..used] {
            board.report(&mut store, key, &ero, &other, SRV6, &[]).unwrap();
        }
        let start = (record(&board), store.clone(), board, store);

        let (mut r, mut rs, mut b, mut bs) = start.clone();
        self.time(
            &format!("report, {name}"),
            |turn| {
                assert_eq!(raw::report(black_box(&mut r), &mut rs, key(turn), black_box(&ero), FREE, SRV6, &[]).number, 0);
            },
            |turn| {
                assert!(black_box(&mut b).report(&mut bs, key(turn), black_box(&ero), &other, SRV6, &[]).is_ok());
            },
        );

        // a removal is made a path again by hand, so that each turn finds the same board
        let (mut r, rs, mut b, bs) = start.clone();
        let length = (ero.len() - 4) as u16;
        self.time(
            &format!("remove, {name}"),
            |turn| {
                assert_eq!(raw::remove(black_box(&mut r), &rs, key(turn)).number, 0);
                r.lengths[turn * 37 % used] = length;
                r.forms[turn * 37 % used] = SRV6 as u8;
            },
            |turn| {
                assert!(black_box(&mut b).remove(&bs, key(turn)).is_ok());
                b.lengths[turn * 37 % used] = length;
                b.forms[turn * 37 % used] = SRV6 as u8;
            },
        );

        let (r, rs, b, bs) = start.clone();
        let mark = |turn: usize| (turn * 29 % used) as u64;
        self.time(
            &format!("next, {name}"),
            |turn| {
                assert_eq!(black_box(raw::next(black_box(&r), &rs, mark(turn), mark(turn))).kind, 1);
            },
            |turn| {
                assert!(matches!(black_box(black_box(&b).next(&bs, mark(turn), mark(turn))), Ok(reference::Change::Path { .. })));
            },
        );
        self.time(
            &format!("body, {name}"),
            |turn| {
                assert_eq!(black_box(raw::body(black_box(&r), &rs, key(turn))).number, 0);
            },
            |turn| {
                assert!(black_box(black_box(&b).body(&bs, key(turn))).is_ok());
            },
        );

        let (mut r, rs, mut b, bs) = start;
        self.time(
            &format!("compact, {name}"),
            |_| {
                assert_eq!(raw::compact(black_box(&mut r), &rs, 0).number, 0);
            },
            |_| {
                assert!(black_box(&mut b).compact(&bs, 0).is_ok());
            },
        );
    }

    /// Whether keys of a range moved, on a full board: none since the last change, one key, every key; and a range that no key is in.
    fn moved(&mut self) {
        let other = free();
        let ero = plain_route(4);
        let keys = random_keys();
        let mut store = vec![0; reference::STORE_OCTETS];
        let mut b = reference::Board::default();
        for &key in &keys {
            b.report(&mut store, key, &ero, &other, SRV6, &[]).unwrap();
        }
        let r = record(&b);
        let (all, top) = ((0, u64::MAX), PLACES as u64);
        for (duty, (from, to), v, yes) in [
            ("moved, full board, nothing moved", all, top, false),
            ("moved, full board, one key moved", all, top - 1, true),
            ("moved, full board, all moved, one asked", (keys[100], keys[100]), 0, true),
            ("moved, full board, all moved, none asked", (1_048_575, u64::MAX), 0, false),
        ] {
            assert_eq!(b.moved(&store, from, to, v), Ok(yes));
            self.time(
                duty,
                |_| {
                    assert_eq!(black_box(raw::moved(black_box(&r), &store, black_box(from), black_box(to), black_box(v))).count, yes as usize);
                },
                |_| {
                    assert!(black_box(black_box(&b).moved(&store, black_box(from), black_box(to), black_box(v))) == Ok(yes));
                },
            );
        }
    }

    /// A follower's next calls on a full board: one whose mark lies so many changes behind, one that is handed the first path behind so many
    /// removals that it does not want, and all from fresh to level.
    fn follow(&mut self) {
        let other = free();
        let ero = plain_route(4);
        let keys = random_keys();
        let mut store = vec![0; reference::STORE_OCTETS];
        let mut full = reference::Board::default();
        for &key in &keys {
            full.report(&mut store, key, &ero, &other, SRV6, &[]).unwrap();
        }
        let mut next = |duty: &str, b: &reference::Board, s: u64, w: u64| {
            let r = record(b);
            self.time(
                duty,
                |_| {
                    assert_eq!(black_box(raw::next(black_box(&r), &store, black_box(s), black_box(w))).kind, 1);
                },
                |_| {
                    assert!(matches!(black_box(black_box(b).next(&store, black_box(s), black_box(w))), Ok(reference::Change::Path { .. })));
                },
            );
        };
        for behind in [1, 32, 64, 96, 128] {
            let mark = PLACES as u64 - behind;
            next(&format!("next, mark behind by {behind}"), &full, mark, mark);
        }
        for removals in [0, 32, 64, 96, 127] {
            let mut b = full;
            for &key in &keys[..removals] {
                b.remove(&store, key).unwrap();
            }
            b.report(&mut store.clone(), keys[127], &ero, &other, SRV6, &[]).unwrap();
            next(&format!("next, unwanted removals: {removals}"), &b, b.version, PLACES as u64);
        }
        let r = record(&full);
        self.time(
            "fresh to level, full board",
            |_| {
                let (s, mut w, mut calls) = (black_box(&r).version, 0, 1);
                loop {
                    let handed = raw::next(black_box(&r), &store, s, w);
                    if handed.kind == 3 {
                        break;
                    }
                    (w, calls) = (handed.version, calls + 1);
                }
                assert_eq!(calls, PLACES + 1);
            },
            |_| {
                let (s, mut w, mut calls) = (black_box(&full).version, 0, 1);
                while let Ok(reference::Change::Path { version, .. }) = black_box(&full).next(&store, s, w) {
                    (w, calls) = (version, calls + 1);
                }
                assert_eq!(calls, PLACES + 1);
            },
        );
    }
}

fn main() {
    let rounds = std::env::args().nth(1).and_then(|word| word.parse().ok()).unwrap_or(60);
    let mut bench = Bench { rounds, worst: 0.0 };

    bench.title("duty");
    assert_eq!(raw::read_open(AT, &O).limit, 4);
    bench.time(
        "OPEN",
        |_| {
            black_box(raw::read_open(AT, black_box(&O)));
        },
        |_| {
            black_box(reference::read_open(reference::Setup { a: 0, r: 1 }, black_box(&O))).ok();
        },
    );
    let eight = open_with(&[41, 9, 42, 1, 44, 7, 45, 2, 44, 8, 41, 6, 42, 0, 45, 5]);
    assert_eq!(raw::read_open(AT, &eight).limit, 7);
    bench.time(
        "OPEN, pairs: 8",
        |_| {
            black_box(raw::read_open(AT, black_box(&eight)));
        },
        |_| {
            black_box(reference::read_open(reference::Setup { a: 0, r: 1 }, black_box(&eight))).ok();
        },
    );
    assert_eq!(raw::read_open(AT, &BOTH).mplslimit, 9);
    bench.time(
        "OPEN of both forms",
        |_| {
            black_box(raw::read_open(AT, black_box(&BOTH)));
        },
        |_| {
            black_box(reference::read_open(reference::Setup { a: 0, r: 1 }, black_box(&BOTH))).ok();
        },
    );
    for n in [1, 4, 16, 2729] {
        bench.judge(&format!("ERO, segments: {n}"), &plain_route(n), SRV6);
        bench.judge(&format!("ERO of MPLS, segments: {n}"), &label_route(n), MPLS);
    }
    bench.judge("ERO, segments with all parts: 16", &mixed_route(16, false), SRV6);
    bench.judge("the same, 6 of them stray", &mixed_route(16, true), SRV6);
    bench.judge("ERO of MPLS, all shapes: 16", &mixed_labels(16), MPLS);
    bench.segment("segment 0 of 1", &plain_route(1), SRV6, 0);
    bench.segment("segment 15 of 16", &plain_route(16), SRV6, 15);
    bench.segment("segment 4 of 16, with an NAI", &mixed_route(16, false), SRV6, 4);
    bench.segment("segment 0 of 1, MPLS", &label_route(1), MPLS, 0);
    bench.segment("segment 15 of 16, MPLS", &label_route(16), MPLS, 15);
    bench.segment("segment 5 of 16, MPLS, with an NAI", &mixed_labels(16), MPLS, 5);
    for n in [16, 2729] {
        bench.steps(&format!("all segments in one pass: {n}"), &plain_route(n), SRV6);
        bench.steps(&format!("all of MPLS in one pass: {n}"), &label_route(n), MPLS);
    }
    bench.write("begin, 16 adds, finish", 16, false);
    bench.write("begin, 16 adds of all parts, finish", 16, true);
    bench.write_labels("begin, 16 labels, finish", 16, false);
    bench.write_labels("begin, 16 labels, all parts, finish", 16, true);
    bench.report_labels();
    bench.board(PLACES, "full board", &random_keys());
    println!("worst ratio {:.2}\n", bench.worst);

    bench.title("growth");
    for n in [2, 8, 64, 256, 1024] {
        bench.judge(&format!("ERO, segments: {n}"), &plain_route(n), SRV6);
        bench.judge(&format!("ERO of MPLS, segments: {n}"), &label_route(n), MPLS);
    }
    for n in [1, 64] {
        bench.write(&format!("begin, adds, finish: {n}"), n, false);
    }
    for used in [1, 32, 64, 96] {
        bench.board(used, &format!("places: {used}"), &random_keys());
    }
    bench.follow();
    bench.moved();
    let in_a_row: Vec<u64> = (1..=PLACES as u64).collect();
    bench.board(PLACES, "full, keys in a row", &in_a_row);
}
