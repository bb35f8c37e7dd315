//! The ways by which a program calls the library: the archive's functions, the wrapper's safe calls, the C header's inline calls. Each answers
//! in the archive's records, so that one comparison serves all.

use crate::header;
use crate::plain;
use reference as theirs;
use strundevi::{raw, Board, Change, Form, Mark, Refusal, PLACE_OCTETS};

#[derive(Clone, Copy, Debug, PartialEq, Eq)]
pub enum Door {
    Archive,
    Wrapper,
    Header,
}

pub const DOORS: [Door; 3] = [Door::Archive, Door::Wrapper, Door::Header];

/// What no call may answer: the wrapper contradicts itself.
const NEVER: usize = usize::MAX;

fn refused(refusal: Refusal) -> raw::Verdict {
    raw::Verdict { number: refusal.number as usize, place: refusal.place, count: 0, stray: 0 }
}

fn verdict(answer: strundevi::Result<usize>) -> raw::Verdict {
    answer.map_or_else(refused, |count| raw::Verdict { number: 0, place: 0, count, stray: 0 })
}

fn counted(answer: strundevi::Result<strundevi::Counts>) -> raw::Verdict {
    answer.map_or_else(refused, |counts| raw::Verdict { number: 0, place: 0, count: counts.segments, stray: counts.stray })
}

pub fn read_open(door: Door, at: theirs::Setup, s: &[u8]) -> raw::Opened {
    let setup = raw::Setup { a: at.a, r: at.r };
    match door {
        Door::Archive => raw::read_open(setup, s),
        Door::Header => header::read_open(setup, s),
        Door::Wrapper => match strundevi::read_open(strundevi::Setup { a: at.a, r: at.r }, s) {
            Ok(o) => raw::Opened {
                number: 0,
                srv6: o.srv6 as u8,
                n: o.n as u8,
                limited: o.limit.is_some() as u8,
                limit: o.limit.unwrap_or(0),
                a: o.a as u8,
                r: o.r as u8,
                hasv: o.v.is_some() as u8,
                v: o.v.unwrap_or(0),
                hasm: o.m.is_some() as u8,
                m: o.m.unwrap_or(0),
                mpls: o.mpls.is_some() as u8,
                mplsn: o.mpls.is_some_and(|mpls| mpls.n) as u8,
                mplslimited: o.mpls.is_some_and(|mpls| mpls.limit.is_some()) as u8,
                form: 0,
                mplslimit: o.mpls.and_then(|mpls| mpls.limit).unwrap_or(0),
            },
            Err(refusal) => {
                let form = match refusal.form {
                    None => 0,
                    Some(Form::Mpls) => 1,
                    Some(Form::Srv6) => 3,
                };
                let refused = refused(refusal.into());
                raw::Opened { form, ..plain::opened(&Err(theirs::Fault { number: (refused.number + refused.place) as u8, form })) }
            }
        },
    }
}

/// The session of two answers, which the wrapper reads from the octets itself.
pub fn agree(door: Door, opens: [raw::Opened; 2], at: theirs::Setup, octets: [&[u8]; 2]) -> raw::Session {
    match door {
        Door::Archive => raw::agree(opens[0], opens[1]),
        Door::Header => header::agree(opens[0], opens[1]),
        Door::Wrapper => {
            let [pcc, pce] = octets.map(|s| strundevi::read_open(strundevi::Setup { a: at.a, r: at.r }, s));
            let s = strundevi::Session::agree(&pcc, &pce);
            let mpls = s.mpls.map(|mpls| theirs::Mpls { n: mpls.n, limit: mpls.limit });
            plain::session(&theirs::Session { agreed: s.agreed, n: s.n, limit: s.limit, a: s.a, r: s.r, v: s.v, m: s.m, mpls })
        }
    }
}

pub fn judge(door: Door, s: &[u8], ero: bool, session: &theirs::Session, pst: u64, addresses: &[u8]) -> raw::Verdict {
    match door {
        Door::Archive => raw::judge(s, ero as u8, plain::session(session), pst, addresses),
        Door::Header => header::judge(s, ero as u8, plain::session(session), pst, addresses),
        Door::Wrapper => counted(strundevi::judge(s, plain::safe_kind(ero), &plain::safe_session(session), pst, addresses)),
    }
}

/// The wrapper hands out no counts with a segment: they are the judgement's.
pub fn segment(door: Door, s: &[u8], ero: bool, session: &theirs::Session, pst: u64, addresses: &[u8], i: u64) -> raw::Picked {
    match door {
        Door::Archive => raw::segment(s, ero as u8, plain::session(session), pst, addresses, i),
        Door::Header => header::segment(s, ero as u8, plain::session(session), pst, addresses, i),
        Door::Wrapper => match strundevi::segment(s, plain::safe_kind(ero), &plain::safe_session(session), pst, addresses, i) {
            Ok((segment, x)) => raw::Picked {
                verdict: judge(door, s, ero, session, pst, addresses),
                segment: plain::told(&segment),
                flags: x.flags,
                sflags: x.structure,
                reserved: x.reserved as u8,
            },
            Err(refusal) => raw::Picked { verdict: refused(refusal), segment: raw::Segment::ZERO, flags: 0, sflags: 0, reserved: 0 },
        },
    }
}

pub fn step(door: Door, s: &[u8], ero: bool, pst: u64, at: usize) -> raw::Stepped {
    match door {
        Door::Archive => raw::step(s, ero as u8, pst, at),
        Door::Header => header::step(s, ero as u8, pst, at),
        Door::Wrapper => match strundevi::step(s, plain::safe_kind(ero), pst, at) {
            Ok((segment, next)) => raw::Stepped { verdict: verdict(Ok(0)), segment: plain::told(&segment), next },
            Err(refusal) => raw::Stepped { verdict: refused(refusal), segment: raw::Segment::ZERO, next: at },
        },
    }
}

/// The wrapper begins routes of the two forms, and goes on with these: other setup types go by the archive.
fn form(pst: u64) -> Option<Form> {
    match pst {
        1 => Some(Form::Mpls),
        3 => Some(Form::Srv6),
        _ => None,
    }
}

pub fn begin(door: Door, buffer: &mut [u8], writer: raw::Writer, ero: bool, pst: u64) -> raw::Written {
    match (door, form(pst)) {
        (Door::Header, _) => header::begin(buffer, writer, ero as u8, pst),
        (Door::Wrapper, Some(form)) => match strundevi::Writer::begin(buffer, plain::safe_kind(ero), form) {
            Ok(w) => raw::Written { verdict: verdict(Ok(0)), writer: state(&w) },
            Err(refusal) => raw::Written { verdict: refused(refusal), writer },
        },
        _ => raw::begin(buffer, writer, ero as u8, pst),
    }
}

fn state(writer: &strundevi::Writer) -> raw::Writer {
    raw::Writer { ero: (writer.kind() == strundevi::Kind::Ero) as u8, form: if writer.form() == Form::Mpls { 1 } else { 3 }, at: writer.at() }
}

/// The segment's flags are yes by this octet. The wrapper has no segments that say nothing or too much: those go by the archive.
pub fn add(door: Door, buffer: &mut [u8], writer: raw::Writer, segment: &theirs::Segment, flag: u8) -> raw::Written {
    let mut s = plain::segment(segment);
    for yes in [&mut s.loose, &mut s.verify, &mut s.hassid, &mut s.structured, &mut s.labelled, &mut s.complete] {
        *yes *= flag;
    }
    let form = form(writer.form.into());
    match (door, form, form.and_then(|form| plain::built(segment, form))) {
        (Door::Header, ..) => header::add(buffer, writer, &s),
        (Door::Wrapper, Some(form), Some(built)) => {
            let mut w = strundevi::Writer::resume(buffer, plain::safe_kind(writer.ero != 0), form, writer.at);
            let answer = w.add(&built);
            raw::Written { verdict: verdict(answer.map(|()| 0)), writer: state(&w) }
        }
        _ => raw::add(buffer, writer, &s),
    }
}

pub fn finish(door: Door, buffer: &mut [u8], writer: raw::Writer) -> raw::Written {
    match (door, form(writer.form.into())) {
        (Door::Header, _) => header::finish(buffer, writer),
        (Door::Wrapper, Some(form)) => {
            let start = buffer.as_ptr();
            let mut w = strundevi::Writer::resume(buffer, plain::safe_kind(writer.ero != 0), form, writer.at);
            let answer = w.finish().map(|object| (object.as_ptr(), object.len()));
            let writer = state(&w);
            let verdict = match answer {
                Ok(object) if object == (start, writer.at) => verdict(Ok(0)),
                Ok(_) => raw::Verdict { number: NEVER, place: 0, count: 0, stray: 0 },
                Err(refusal) => refused(refusal),
            };
            raw::Written { verdict, writer }
        }
        _ => raw::finish(buffer, writer),
    }
}

// ---- the board: its record and its store belong to the caller, who makes a wrapper's board of them for each call

/// A wrapper's call on the record and the store; the record is then what the board has.
fn with<T>(record: &mut raw::Record, store: &mut [u8], call: impl FnOnce(&mut Board<&mut [u8]>) -> T) -> T {
    let size = store.len();
    let mut board = Board::from_parts(*record, store);
    let answer = call(&mut board);
    assert_eq!((board.version(), board.floor(), board.store().len()), (board.record().version, board.record().floor, size));
    (*record, _) = board.into_parts();
    answer
}

/// The wrapper's keys are of 32 bits.
fn small(key: u64) -> Option<u32> {
    u32::try_from(key).ok()
}

pub fn empty(door: Door, record: &mut raw::Record, store: &mut [u8]) {
    match door {
        Door::Archive => raw::empty(record),
        Door::Header => header::empty(record),
        Door::Wrapper => (*record, _) = Board::new(store).into_parts(),
    }
}

pub fn report(
    door: Door,
    b: &mut raw::Record,
    store: &mut [u8],
    key: u64,
    ero: &[u8],
    session: &theirs::Session,
    pst: u64,
    addresses: &[u8],
) -> raw::Verdict {
    match (door, small(key)) {
        (Door::Header, _) => header::report(b, store, key, ero, plain::session(session), pst, addresses),
        (Door::Wrapper, Some(key)) => with(b, store, |board| counted(board.report(key, ero, &plain::safe_session(session), pst, addresses))),
        _ => raw::report(b, store, key, ero, plain::session(session), pst, addresses),
    }
}

pub fn remove(door: Door, b: &mut raw::Record, store: &mut [u8], key: u64) -> raw::Verdict {
    match (door, small(key)) {
        (Door::Header, _) => header::remove(b, store, key),
        (Door::Wrapper, Some(key)) => with(b, store, |board| verdict(board.remove(key).map(|()| 0))),
        _ => raw::remove(b, store, key),
    }
}

pub fn compact(door: Door, b: &mut raw::Record, store: &mut [u8], c: u64) -> raw::Verdict {
    match door {
        Door::Archive => raw::compact(b, store, c),
        Door::Header => header::compact(b, store, c),
        Door::Wrapper => with(b, store, |board| verdict(board.compact(c).map(|()| 0))),
    }
}

pub fn body(door: Door, b: &mut raw::Record, store: &mut [u8], key: u64) -> raw::Part {
    let first = store.as_ptr() as usize;
    match (door, small(key)) {
        (Door::Header, _) => header::body(b, store, key),
        (Door::Wrapper, Some(key)) => with(b, store, |board| match board.body(key) {
            Ok(path) => raw::Part { number: 0, start: path.body.as_ptr() as usize - first, length: path.body.len(), form: path.form.pst() as usize },
            Err(refusal) => raw::Part { number: refused(refusal).number + refusal.place, start: 0, length: 0, form: 0 },
        }),
        _ => raw::body(b, store, key),
    }
}

pub fn moved(door: Door, b: &mut raw::Record, store: &mut [u8], from: u64, to: u64, v: u64) -> raw::Verdict {
    match door {
        Door::Archive => raw::moved(b, store, from, to, v),
        Door::Header => header::moved(b, store, from, to, v),
        Door::Wrapper => with(b, store, |board| verdict(board.moved(from..=to, v).map(usize::from))),
    }
}

/// What a follower is handed, and the mark it then has, where the door says it.
pub fn next(door: Door, b: &mut raw::Record, store: &mut [u8], s: u64, w: u64) -> (raw::Next, Option<(u64, u64)>) {
    let first = store.as_ptr() as usize;
    match door {
        Door::Archive => (raw::next(b, store, s, w), None),
        Door::Header => {
            let r = header::next(b, store, raw::Mark { s, w });
            let mark = header::mark_after(raw::Mark { s, w }, r);
            (r, Some((mark.s, mark.w)))
        }
        Door::Wrapper => with(b, store, |board| {
            let none = raw::Next { number: 0, kind: 0, key: 0, version: 0, place: 0, length: 0, form: 0 };
            let answer = board.next(Mark { s, w });
            let mark = answer.as_ref().ok().map(|change| Mark { s, w }.after(change)).map(|mark| (mark.s, mark.w));
            let r = match answer {
                Ok(Change::Path { key, version, form, body }) => {
                    let start = body.as_ptr() as usize - first;
                    let place = if start % PLACE_OCTETS == 0 { start / PLACE_OCTETS } else { NEVER };
                    raw::Next { kind: 1, key: key.into(), version, place, length: body.len(), form: form.pst() as usize, ..none }
                }
                Ok(Change::Removed { key, version }) => raw::Next { kind: 2, key: key.into(), version, ..none },
                Ok(Change::Level { version }) => raw::Next { kind: 3, version, ..none },
                Err(refusal) => raw::Next { number: refused(refusal).number + refusal.place, ..none },
            };
            (r, mark)
        }),
    }
}

pub fn fresh_mark(door: Door, b: &mut raw::Record, store: &mut [u8]) -> (u64, u64) {
    match door {
        Door::Archive => {
            let mark = raw::fresh_mark(b.version);
            (mark.s, mark.w)
        }
        Door::Header => {
            let mark = header::fresh_mark(b);
            (mark.s, mark.w)
        }
        Door::Wrapper => with(b, store, |board| (board.fresh_mark().s, board.fresh_mark().w)),
    }
}
