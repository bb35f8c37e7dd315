//! Routes written by both sides into equal buffers.

use crate::doors::{self, Door, DOORS};
use crate::octets::hex;
use crate::plain;
use crate::random::Random;
use crate::tally::{Call, Tally};
use reference::{Form, Kind, Segment, Writer};
use strundevi::raw;

#[derive(Clone, Debug)]
enum Step {
    Begin { ero: bool, pst: u64 },
    Add { segment: Segment, flag: u8 },
    Finish,
    /// The caller comes back with another state.
    Resume { ero: bool, form: u8, at: usize },
}

/// Mostly one of the form; now and then the other's.
fn some_segment(r: &mut Random, form: Form, ero: bool) -> Segment {
    let other = match form {
        Form::Srv6 => Form::Mpls,
        Form::Mpls => Form::Srv6,
    };
    match if r.one_in(40) { other } else { form } {
        Form::Srv6 => srv6_segment(r, ero),
        Form::Mpls => mpls_segment(r, ero),
    }
}

fn mpls_segment(r: &mut Random, ero: bool) -> Segment {
    let nt = if r.one_in(25) { r.octet() } else { r.of(&[0, 0, 1, 2, 3, 4, 5, 6]) };
    let nai = [0, 4, 16, 8, 32, 16, 40].get(nt as usize).copied().unwrap_or(0);
    let has_sid = if nt == 0 { !r.one_in(25) } else { !r.one_in(4) };
    let labelled = if has_sid { !r.one_in(3) } else { r.one_in(25) };
    let complete = if labelled { r.one_in(3) } else { r.one_in(25) };
    let mut s = Segment {
        loose: ero && r.one_in(3) || r.one_in(25),
        verify: ero && r.one_in(3) || r.one_in(25),
        nt,
        has_sid,
        labelled,
        complete,
        structured: r.one_in(40),
        ..Segment::default()
    };
    if r.one_in(25) {
        s.behaviour = r.of(&[1, 256, 65_535]);
    }
    if has_sid {
        let (special, any) = (r.below(17) as u32, r.next() as u32 >> 12);
        let label = r.of(&[7, 16, 16_001, 0xf_ffff, special, any]);
        let entry = label << 12 | r.next() as u32 & r.of(&[0, 0xf00, 0xfff]);
        s.sid[..4].copy_from_slice(&entry.to_be_bytes());
    }
    if r.one_in(20) {
        let from = if has_sid { 4 } else { 0 };
        s.sid[from + r.below(16 - from)] = 1;
    }
    s.nai[..nai].copy_from_slice(&r.octets(nai));
    if nai < 40 && r.one_in(20) {
        s.nai[nai + r.below(40 - nai)] = 128;
    }
    if r.one_in(30) {
        s.structure[r.below(4)] = r.of(&[1, 200]);
    }
    s
}

fn srv6_segment(r: &mut Random, ero: bool) -> Segment {
    let nt = if r.one_in(25) { r.octet() } else { r.of(&[0, 0, 2, 4, 6]) };
    let nai = match nt {
        2 => 16,
        4 => 32,
        6 => 40,
        _ => 0,
    };
    let has_sid = if nt == 0 { !r.one_in(25) } else { !r.one_in(4) };
    let structured = if has_sid { r.one_in(3) } else { r.one_in(25) };
    let mut s = Segment {
        loose: ero && r.one_in(3) || r.one_in(25),
        verify: ero && r.one_in(3) || r.one_in(25),
        nt,
        behaviour: r.next() as u16,
        has_sid,
        structured,
        labelled: r.one_in(40),
        complete: r.one_in(40),
        ..Segment::default()
    };
    if has_sid {
        s.sid.copy_from_slice(&r.octets(16));
    } else if r.one_in(20) {
        s.sid[r.below(16)] = 1;
    }
    s.nai[..nai].copy_from_slice(&r.octets(nai));
    if nai < 40 && r.one_in(20) {
        s.nai[nai + r.below(40 - nai)] = 128;
    }
    if structured {
        s.structure = match r.below(6) {
            0 => r.of(&[[64; 4], [40, 24, 16, 48], [40, 24, 16, 49], [255; 4], [128, 0, 0, 0], [0, 0, 0, 129]]),
            1 => [r.octet() / 2, r.octet() / 4, r.octet() / 8, r.octet() / 8],
            _ => [r.below(33) as u8, r.below(33) as u8, r.below(33) as u8, r.below(33) as u8],
        };
    } else if r.one_in(25) {
        s.structure[r.below(4)] = 1;
    }
    s
}

fn some_pst(r: &mut Random) -> u64 {
    r.of(&[1, 1, 1, 3, 3, 3, 0, 2, 257, 259, 1 << 32 | 1, u64::MAX])
}

fn some_step(r: &mut Random, form: Form, ero: bool, size: usize) -> Step {
    match r.below(20) {
        0 => Step::Begin { ero: r.one_in(2), pst: some_pst(r) },
        1 | 2 => Step::Finish,
        3 => {
            let at = match r.below(5) {
                0 => r.below(10),
                1 => size.wrapping_add(r.below(9)).wrapping_sub(4),
                2 => 65_520 + r.below(24),
                3 => r.number() as usize,
                _ => r.below(size + 8) / 4 * 4,
            };
            Step::Resume { ero: r.one_in(2), form: r.of(&[1, 1, 3, 3, 0, 2, 255]), at }
        }
        _ => {
            let segment = some_segment(r, form, ero);
            Step::Add { segment, flag: r.of(&[1, 1, 1, 2, 128, 255]) }
        }
    }
}

/// The two sides' writers and buffers.
struct Pair {
    theirs: Writer,
    their_buffer: Vec<u8>,
    ours: raw::Writer,
    our_buffer: Vec<u8>,
}

impl Pair {
    fn new(size: usize) -> Pair {
        let buffer: Vec<u8> = (0..size).map(|i| 0xEE ^ i as u8).collect();
        let (theirs, ours) = (Writer { kind: Kind::Ero, form: 0, at: 0 }, raw::Writer { ero: 1, form: 0, at: 0 });
        Pair { theirs, their_buffer: buffer.clone(), ours, our_buffer: buffer }
    }

    /// One step on both sides: the number, or what differs.
    fn step(&mut self, door: Door, step: &Step) -> Result<usize, String> {
        let (answer, written) = match step {
            Step::Resume { ero, form, at } => {
                self.theirs = Writer { kind: plain::kind(*ero), form: *form, at: *at };
                self.ours = raw::Writer { ero: *ero as u8, form: *form, at: *at };
                return Ok(0);
            }
            Step::Begin { ero, pst } => {
                (Writer::begin(&mut self.their_buffer, plain::kind(*ero), *pst), doors::begin(door, &mut self.our_buffer, self.ours, *ero, *pst))
            }
            Step::Add { segment, flag } => {
                (self.theirs.add(&mut self.their_buffer, segment), doors::add(door, &mut self.our_buffer, self.ours, segment, *flag))
            }
            Step::Finish => (self.theirs.finish(&mut self.their_buffer), doors::finish(door, &mut self.our_buffer, self.ours)),
        };
        let verdict = plain::theirs(&answer, |_| 0);
        self.theirs = answer.unwrap_or(self.theirs);
        self.ours = written.writer;
        let expected = ((self.theirs.kind == Kind::Ero) as u8, self.theirs.form, self.theirs.at);
        let ours = plain::ours(written.verdict);
        let state = (self.ours.ero, self.ours.form, self.ours.at);
        if ours != verdict || state != expected {
            return Err(format!("library   {ours:?}, writer {state:?}\nreference {verdict:?}, writer {expected:?} (ERO, form, place)"));
        }
        if self.our_buffer != self.their_buffer {
            let at = self.our_buffer.iter().zip(&self.their_buffer).position(|(a, b)| a != b).unwrap();
            let end = (at + 48).min(self.our_buffer.len());
            return Err(format!("octet {at} of the buffer\nlibrary   {}\nreference {}", hex(&self.our_buffer[at..end]), hex(&self.their_buffer[at..end])));
        }
        Ok(verdict.0)
    }
}

fn run(size: usize, steps: &[(Door, Step)]) -> Option<String> {
    let mut pair = Pair::new(size);
    steps.iter().find_map(|(door, step)| pair.step(*door, step).err())
}

/// The fewest steps found that still differ.
fn shown(size: usize, mut steps: Vec<(Door, Step)>) -> String {
    let mut at = 0;
    while at < steps.len() {
        let mut fewer = steps.clone();
        fewer.remove(at);
        if run(size, &fewer).is_some() {
            steps = fewer;
        } else {
            at += 1;
        }
    }
    let list: String = steps.iter().map(|(door, step)| format!("{door:?}: {step:?}\n")).collect();
    format!("a buffer of {size} octets\n{list}{}", run(size, &steps).unwrap_or_default())
}

/// Each place about 65,532, the most octets of an object, in buffers of about as many: a segment added there, and the route finished.
pub fn longest() -> Result<(), String> {
    let [mut srv6, mut mpls] = [Segment { has_sid: true, ..Segment::default() }; 2];
    srv6.sid[15] = 1;
    mpls.labelled = true;
    mpls.sid[..4].copy_from_slice(&(16_001u32 << 12).to_be_bytes());
    for size in 65_524..=65_540 {
        for at in (65_500..=65_544).step_by(4) {
            for (form, segment) in [(1, mpls), (3, srv6)] {
                for door in DOORS {
                    let steps = [Step::Resume { ero: true, form, at }, Step::Finish, Step::Add { segment, flag: 1 }, Step::Finish];
                    let steps = steps.map(|step| (door, step));
                    if run(size, &steps).is_some() {
                        return Err(shown(size, steps.to_vec()));
                    }
                }
            }
        }
    }
    Ok(())
}

/// So many steps, in runs over buffers of all sizes.
pub fn steps(tally: &mut Tally, r: &mut Random, n: usize) -> Result<(), String> {
    let mut done = 0;
    while done < n {
        let size = match r.below(40) {
            0 => 65_480 + r.below(70),
            1..=4 => r.below(8),
            _ => r.below(700),
        };
        let (mut ero, first) = (r.one_in(2), some_pst(r));
        let mut pair = Pair::new(size);
        let mut steps = Vec::new();
        for turn in 0..r.below(40) {
            let form = pair.theirs.form.into();
            let step = if turn == 0 { Step::Begin { ero, pst: first } } else { some_step(r, Form::of(form), ero, size) };
            if let Step::Begin { ero: kind, .. } | Step::Resume { ero: kind, .. } = step {
                ero = kind;
            }
            let door = r.of(&DOORS);
            steps.push((door, step.clone()));
            let number = pair.step(door, &step).map_err(|_| shown(size, steps.clone()))?;
            match step {
                Step::Begin { .. } => tally.count(door, Call::Begin, number),
                Step::Add { .. } => tally.count(door, Call::Add.of(form), number),
                Step::Finish => tally.count(door, Call::Finish, number),
                Step::Resume { .. } => {}
            }
            done += 1;
        }
    }
    Ok(())
}
