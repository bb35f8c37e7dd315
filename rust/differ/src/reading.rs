//! OPEN and route objects, read by both sides.

use crate::doors::{self, Door, DOORS};
use crate::objects;
use crate::octets::{damage, hex, seal, shrink};
use crate::plain;
use crate::random::Random;
use crate::tally::{Call, Tally};
use reference::{Form, Mpls, Session, Setup};
use strundevi::raw;

const O: &str = "01100020201E7807002200120000000103000000001B0006000000002C040000";
const E: &str = "0710001C281800020000000120010DB8000000010000000000000001";
/// Both forms: sub-TLV 26 with N and a depth of 5, sub-TLV 27 with H.Encaps 4.
const BOTH: &str = "01100028201E78070022001A0000000201030000001A000400000205001B0006000000002C040000";
/// Labels as routers send them, with an IPv4 node, an IPv4 adjacency and an unnumbered one.
const LABELS: &str = "07100038240C100103E81000C000020124103001061A8000C0000201C000020224185001061A9000C000020100000003C000020200000004";
/// Label 7 alone: one octet away from it are labels 0 to 15, 16 and above, an index, and C with a TTL of 0.
const LABEL_7: &str = "0710000C2408000900007100";

fn octets(hex: &str) -> Vec<u8> {
    (0..hex.len()).step_by(2).map(|i| u8::from_str_radix(&hex[i..i + 2], 16).unwrap()).collect()
}

// ---- OPEN

type OpenFacts = (usize, [u8; 3], usize, [u8; 6], [u8; 3], usize, u8);

fn facts(r: raw::Opened) -> OpenFacts {
    let mpls = [r.mpls, r.mplsn, r.mplslimited];
    (r.number, [r.srv6, r.n, r.limited], r.limit, [r.a, r.r, r.hasv, r.v, r.hasm, r.m], mpls, r.mplslimit, r.form)
}

fn our_open(door: Door, at: Setup, s: &[u8]) -> OpenFacts {
    facts(doors::read_open(door, at, s))
}

fn their_open(at: Setup, s: &[u8]) -> OpenFacts {
    facts(plain::opened(&reference::read_open(at, s)))
}

/// Two positions; one in `faults` is not usable.
pub fn some_setup(r: &mut Random, faults: usize) -> Setup {
    let a = r.below(14) as u64;
    let b = (a + 1 + r.below(13) as u64) % 14;
    if r.one_in(faults) {
        let far = r.of(&[14, 15, 16, 63, 64, 1 << 32, u64::MAX]);
        return r.of(&[Setup { a, r: a }, Setup { a: far, r: b }, Setup { a, r: far }, Setup { a: far, r: far }]);
    }
    Setup { a, r: b }
}

pub fn check_open(tally: &mut Tally, door: Door, at: Setup, s: &[u8]) -> Result<(), String> {
    let theirs = their_open(at, s);
    tally.count(door, Call::Open, theirs.0);
    if theirs.4[0] != 0 || theirs.6 == 1 {
        tally.count(door, Call::MplsOpen, theirs.0);
    }
    if our_open(door, at, s) == theirs {
        return Ok(());
    }
    let small = shrink(s.to_vec(), |s| our_open(door, at, s) != their_open(at, s));
    let (ours, theirs) = (our_open(door, at, &small), their_open(at, &small));
    let told = "number, SRv6, N, limited, limit, A, R, has v, v, has m, m, MPLS, N, limited, limit, form";
    Err(format!("{door:?}: pcc {} at {at:?}\nlibrary   {ours:?}\nreference {theirs:?} ({told})", hex(&small)))
}

/// The session of two answers, and the same with the refused side's other fields filled with what must not count.
fn check_session(r: &mut Random, door: Door, at: Setup, octets: [&[u8]; 2]) -> Result<(), String> {
    let [pcc, pce] = &octets.map(|s| reference::read_open(at, s));
    let theirs = Session::agree(pcc, pce);
    let mut ours = [plain::opened(pcc), plain::opened(pce)];
    if r.one_in(2) {
        for side in &mut ours {
            if side.number != 0 {
                let [srv6, n, limited, a, on, hasv, v, hasm, m, mpls, mplsn, mplslimited] = std::array::from_fn(|_| r.octet());
                let (number, limit, mplslimit, form) = (side.number, r.below(9), r.below(9), r.octet());
                *side = raw::Opened { number, srv6, n, limited, limit, a, r: on, hasv, v, hasm, m, mpls, mplsn, mplslimited, form, mplslimit };
            }
            side.form = r.octet();
            if side.mplslimited == 0 {
                side.mplslimit = r.below(9);
            }
            if side.limited == 0 {
                side.limit = r.below(9);
            }
            if side.hasv == 0 {
                side.v = r.octet();
            }
            if side.hasm == 0 {
                side.m = r.octet();
            }
        }
    }
    let told = |s: raw::Session| ([s.agreed, s.n, s.limited], s.limit, [s.a, s.r, s.hasv, s.v, s.hasm, s.m], [s.mpls, s.mplsn, s.mplslimited], s.mplslimit);
    let ours = told(doors::agree(door, ours, at, octets));
    if ours != told(plain::session(&theirs)) {
        return Err(format!("{door:?}: session of {pcc:?} and {pce:?}\nlibrary   {ours:?}\nreference {theirs:?}"));
    }
    Ok(())
}

// ---- routes

#[derive(Clone)]
pub struct Question {
    pub door: Door,
    pub ero: bool,
    pub session: Session,
    pub pst: u64,
    pub addresses: Vec<u8>,
    pub i: u64,
}

pub fn some_session(r: &mut Random) -> Session {
    if r.one_in(12) {
        return Session::default();
    }
    let limit = match r.below(6) {
        0..=2 => None,
        3 => Some(r.below(4)),
        4 => Some(r.below(256)),
        _ => Some(r.number() as usize),
    };
    let depth = |r: &mut Random| (!r.one_in(3)).then(|| if r.one_in(6) { r.octet() } else { r.below(6) as u8 });
    let (v, m) = (depth(r), if r.one_in(2) { None } else { depth(r) });
    // mostly the limit that v and m set, as in every session of two OPENs
    let permits = v.map(|v| usize::from(v.max(1))).into_iter().chain(m.map(|m| usize::from(m) + 1)).min();
    let limit = if r.one_in(3) { limit } else { permits };
    let mpls = (!r.one_in(12)).then(|| {
        let limit = match r.below(6) {
            0..=2 => None,
            3 => Some(1 + r.below(4)),
            4 => Some(r.below(256)),
            _ => Some(r.number() as usize),
        };
        Mpls { n: !r.one_in(3), limit }
    });
    Session { agreed: !r.one_in(20), n: !r.one_in(3), limit, a: r.one_in(2), r: r.one_in(4), v, m, mpls }
}

/// Addresses of the head end, for routes of one kind mostly with one that the first segment may have; one in `faults` is no list.
pub fn some_addresses(r: &mut Random, s: &[u8], faults: usize) -> Vec<u8> {
    let mut list = Vec::new();
    for _ in 0..r.of(&[0, 0, 1, 1, 2, 5]) {
        // where the local or the remote address, or the SID, of a first segment stands, or near it
        let from = r.of(&[12, 28, 28, 28, 44, 27, 29]);
        match s.get(from..from + 16) {
            Some(address) if !r.one_in(4) => list.extend_from_slice(address),
            _ => list.extend_from_slice(&r.octets(16)),
        }
    }
    if r.one_in(faults) {
        let extra = 1 + r.below(15);
        list.extend_from_slice(&r.octets(extra));
    }
    list
}

/// Mostly that of the form.
pub fn some_pst(r: &mut Random, form: Form) -> u64 {
    if r.one_in(16) {
        return r.of(&[0, 1, 1, 3, 3, 2, 4, 3 << 8, 3 + (1 << 32), 3 + (1 << 8), 1 + (1 << 8), 1 + (1 << 32), u64::MAX, 1 << 63]);
    }
    form.pst().into()
}

pub fn some_form(r: &mut Random) -> Form {
    r.of(&[Form::Srv6, Form::Mpls])
}

fn question(r: &mut Random, form: Form, ero: bool, s: &[u8]) -> Question {
    let i = match r.below(3) {
        0 => 0,
        1 => r.below(8) as u64,
        _ => r.number(),
    };
    Question { door: r.of(&DOORS), ero, session: some_session(r), pst: some_pst(r, form), addresses: some_addresses(r, s, 40), i }
}

fn our_judge(s: &[u8], q: &Question) -> plain::Verdict {
    plain::ours(doors::judge(q.door, s, q.ero, &q.session, q.pst, &q.addresses))
}

fn their_judge(s: &[u8], q: &Question) -> plain::Verdict {
    plain::their_counts(&reference::judge(s, plain::kind(q.ero), &q.session, q.pst, &q.addresses))
}

type Picked = (plain::Verdict, Option<reference::Segment>, (u16, u8, u8));

fn our_segment(s: &[u8], q: &Question) -> Picked {
    let r = doors::segment(q.door, s, q.ero, &q.session, q.pst, &q.addresses, q.i);
    (plain::ours(r.verdict), plain::segment_back(&r.segment), (r.flags, r.sflags, r.reserved))
}

/// A refusal hands back the segment that says nothing, and no strays; an acceptance carries the number of segments and of the stray ones.
fn their_segment(s: &[u8], q: &Question) -> Picked {
    let r = reference::segment(s, plain::kind(q.ero), &q.session, q.pst, &q.addresses, q.i);
    let (segment, x) = r.unwrap_or_default();
    let verdict = match r {
        Ok(_) => their_judge(s, q),
        Err(_) => plain::theirs(&r, |_| 0),
    };
    (verdict, Some(segment), (x.flags, x.structure, x.reserved as u8))
}

fn shown(s: &[u8], q: &Question) -> String {
    let (kind, addresses) = (if q.ero { "ero" } else { "rro" }, hex(&q.addresses));
    format!("{:?}: {kind} {} {} under {:?}, addresses {addresses}, segment {}", q.door, q.pst, hex(s), q.session, q.i)
}

pub fn check_route(tally: &mut Tally, s: &[u8], q: &Question) -> Result<(), String> {
    let theirs = their_judge(s, q);
    tally.count(q.door, if q.ero { Call::Ero } else { Call::Rro }.of(q.pst), theirs.0);
    if q.pst == 1 {
        tally.look(s.get(4..12).unwrap_or_default(), theirs.0);
    }
    if our_judge(s, q) != theirs {
        let small = shrink(s.to_vec(), |s| our_judge(s, q) != their_judge(s, q));
        let (ours, theirs) = (our_judge(&small, q), their_judge(&small, q));
        return Err(format!("{}\nlibrary   {ours:?}\nreference {theirs:?} (number, place, count, stray)", shown(&small, q)));
    }
    let picked = their_segment(s, q);
    tally.count(q.door, Call::Segment.of(q.pst), picked.0 .0);
    if our_segment(s, q) != picked {
        let small = shrink(s.to_vec(), |s| our_segment(s, q) != their_segment(s, q));
        let (ours, theirs) = (our_segment(&small, q), their_segment(&small, q));
        return Err(format!("{}\nlibrary   {ours:?}\nreference {theirs:?}", shown(&small, q)));
    }
    Ok(())
}

// ---- stepping

type Stepped = (plain::Verdict, Option<reference::Segment>, usize);

fn our_step(s: &[u8], q: &Question, at: usize) -> Stepped {
    let r = doors::step(q.door, s, q.ero, q.pst, at);
    (plain::ours(r.verdict), plain::segment_back(&r.segment), r.next)
}

fn their_step(s: &[u8], q: &Question, at: usize) -> Stepped {
    let r = reference::step(s, plain::kind(q.ero), q.pst, at);
    let (segment, next) = r.unwrap_or((reference::Segment::default(), at));
    (plain::theirs(&r, |_| 0), Some(segment), next)
}

/// Steps from a place until one is refused. In an accepted route they hand out its segments, and so does the wrapper's iterator.
fn check_steps(tally: &mut Tally, s: &[u8], q: &Question, from: usize) -> Result<(), String> {
    let mut handed = Vec::new();
    let mut at = from;
    loop {
        let (ours, theirs) = (our_step(s, q, at), their_step(s, q, at));
        tally.count(q.door, Call::Step.of(q.pst), theirs.0 .0);
        if ours != theirs {
            return Err(format!("step at {at} of {}\nlibrary   {ours:?}\nreference {theirs:?}", shown(s, q)));
        }
        let (verdict, Some(segment), next) = theirs else { break };
        if verdict.0 != 0 {
            break;
        }
        handed.push(segment);
        at = next;
    }
    let (number, _, count, _) = their_judge(s, q);
    if from != strundevi::FIRST_PLACE || number != 0 {
        return Ok(());
    }
    let asked = |i: usize| reference::segment(s, plain::kind(q.ero), &q.session, q.pst, &q.addresses, i as u64).ok().map(|(segment, _)| segment);
    if at != s.len() || handed.len() != count || [0, q.i as usize % count, count - 1].iter().any(|&i| asked(i) != Some(handed[i])) {
        return Err(format!("the steps are not the segments: {}", shown(s, q)));
    }
    if q.door == Door::Wrapper {
        let iterator = strundevi::segments(s, plain::safe_kind(q.ero), &plain::safe_session(&q.session), q.pst, &q.addresses);
        let same = iterator.is_ok_and(|all| all.len() == count && all.map(|g| plain::segment_back(&plain::told(&g))).eq(handed.into_iter().map(Some)));
        if !same {
            return Err(format!("the iterator does not hand out the segments: {}", shown(s, q)));
        }
    }
    Ok(())
}

// ---- every prefix, every octet, every inner length

/// The object with its first n octets only; with each octet at each value; with each pair of octets at each small number; header mended or not.
fn around(sample: &[u8], mut look: impl FnMut(&[u8]) -> Result<(), String>) -> Result<(), String> {
    for n in 0..=sample.len() {
        let mut part = sample[..n].to_vec();
        look(&part)?;
        seal(&mut part);
        look(&part)?;
    }
    let mut object = sample.to_vec();
    for at in 0..object.len().min(160) {
        let held = object[at];
        for value in 0..=255 {
            object[at] = value;
            look(&object)?;
        }
        object[at] = held;
    }
    for at in 0..object.len().saturating_sub(1).min(160) {
        let held = [object[at], object[at + 1]];
        for value in (0..72u16).chain([255, 256, 0x7fff, 0xffff]) {
            object[at..at + 2].copy_from_slice(&value.to_be_bytes());
            look(&object)?;
        }
        object[at..at + 2].copy_from_slice(&held);
    }
    Ok(())
}

fn sample_routes(r: &mut Random) -> Vec<(Form, bool, Vec<u8>)> {
    let mut samples = Vec::new();
    for (form, object) in [(Form::Srv6, E), (Form::Mpls, LABELS), (Form::Mpls, LABEL_7)] {
        samples.push((form, true, octets(object)));
        let mut rro = octets(object);
        rro[0] = 8;
        samples.push((form, false, rro));
    }
    for form in [Form::Srv6, Form::Mpls] {
        for n in [1, 1, 2, 2, 3, 5] {
            for ero in [true, false] {
                samples.push((form, ero, objects::route(r, form, ero, n, usize::MAX)));
            }
        }
    }
    samples
}

/// All the objects on either side of good samples.
pub fn exhaust(tally: &mut Tally, r: &mut Random) -> Result<(), String> {
    let mut opens = vec![octets(O), octets(BOTH)];
    while opens.len() < 10 {
        let open = objects::open(r);
        let wanted = opens.len() % 3;
        if reference::read_open(Setup { a: 0, r: 1 }, &open).is_ok_and(|o| (o.srv6 || wanted == 0) && (o.mpls.is_some() || wanted == 1)) {
            opens.push(open);
        }
    }
    for sample in &opens {
        let at = some_setup(r, usize::MAX);
        around(sample, |s| check_open(tally, Door::Archive, at, s))?;
    }
    let free = Session { agreed: true, n: true, mpls: Some(Mpls { n: true, limit: None }), ..Session::default() };
    let one = Session { limit: Some(1), v: Some(1), a: true, ..free };
    let less = Session { n: false, limit: Some(1), mpls: Some(Mpls { n: false, limit: Some(1) }), ..free };
    for (form, ero, sample) in sample_routes(r) {
        let local = sample.get(28..44).unwrap_or_default().to_vec();
        let sessions = match form {
            Form::Srv6 => &[free, less, one, Session { r: true, ..one }][..],
            Form::Mpls => &[free, less],
        };
        for &session in sessions {
            let q = Question { door: Door::Archive, ero, session, pst: form.pst().into(), addresses: local.clone(), i: 1 };
            around(&sample, |s| check_route(tally, s, &q).and_then(|()| check_steps(tally, s, &q, 4)))?;
        }
    }
    Ok(())
}

/// So many OPEN objects made up, and the sessions of each with the one before it.
pub fn opens(tally: &mut Tally, r: &mut Random, n: usize) -> Result<(), String> {
    let mut before = octets(O);
    for _ in 0..n {
        let mut object = if r.one_in(10) {
            let size = r.below(64);
            r.octets(size)
        } else {
            objects::open(r)
        };
        if r.one_in(2) {
            for _ in 0..r.of(&[1, 1, 2, 3]) {
                damage(r, &mut object);
            }
        }
        let door = r.of(&DOORS);
        let at = some_setup(r, 30);
        check_open(tally, door, at, &object)?;
        check_session(r, door, at, [&object, &before])?;
        if !r.one_in(4) || reference::read_open(Setup { a: 0, r: 1 }, &object).is_ok_and(|o| o.srv6 || o.mpls.is_some()) {
            before = object;
        }
    }
    Ok(())
}

/// So many routes made up.
pub fn routes(tally: &mut Tally, r: &mut Random, n: usize) -> Result<(), String> {
    for size in 65_524..=65_540 {
        for (form, ero) in [(Form::Srv6, true), (Form::Srv6, false), (Form::Mpls, true), (Form::Mpls, false)] {
            let object = objects::long_route(r, form, ero, size);
            for door in DOORS {
                for i in if form == Form::Srv6 { [0, 2729, 2730] } else { [0, 8189, 8190] } {
                    check_route(tally, &object, &Question { door, i, ..question(r, form, ero, &object) })?;
                }
            }
        }
    }
    for _ in 0..n {
        let ero = !r.one_in(3);
        let form = some_form(r);
        let count = match r.below(1000) {
            0 => 2729,
            1..=10 => r.below(200),
            _ => r.of(&[0, 1, 1, 1, 2, 2, 3, 4, 5, 6, 9, 17]),
        };
        let mut object = if r.one_in(20) {
            let size = r.below(80);
            r.octets(size)
        } else {
            let faults = r.of(&[4, 12, 60, usize::MAX]);
            objects::route(r, form, ero, count, faults)
        };
        if r.one_in(3) {
            for _ in 0..r.of(&[1, 1, 2, 3]) {
                damage(r, &mut object);
            }
        }
        let asked = if r.one_in(30) { !ero } else { ero };
        let q = question(r, form, asked, &object);
        check_route(tally, &object, &q)?;
        if count < 200 || r.one_in(20) {
            let place = r.number() as usize;
            let from = r.of(&[4, 4, 0, 2, 8, 12, 28, 68, object.len(), object.len().saturating_sub(4), place]);
            check_steps(tally, &object, &q, from)?;
        }
    }
    Ok(())
}
