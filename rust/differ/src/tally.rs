//! How often each call answered each number. A number that a call can answer and never did is a hole in the generator.

use crate::doors::{Door, DOORS};
use std::fmt;

#[derive(Clone, Copy)]
pub enum Call {
    Open,
    Ero,
    Rro,
    Segment,
    Step,
    Begin,
    Add,
    Finish,
    Report,
    Remove,
    Compact,
    Body,
    Next,
    Moved,
    FreshMark,
    Empty,
    MplsOpen,
    MplsEro,
    MplsRro,
    MplsSegment,
    MplsStep,
    MplsAdd,
    MplsReport,
}

impl Call {
    /// The call as it is asked of a route of this setup type.
    pub fn of(self, pst: u64) -> Call {
        match self {
            _ if pst != 1 => self,
            Call::Ero => Call::MplsEro,
            Call::Rro => Call::MplsRro,
            Call::Segment => Call::MplsSegment,
            Call::Step => Call::MplsStep,
            Call::Add => Call::MplsAdd,
            Call::Report => Call::MplsReport,
            other => other,
        }
    }
}

const CALLS: [(&str, &[usize]); 23] = [
    ("open", &[0, 1, 2, 3, 28]),
    ("ero", &[0, 4, 5, 6, 7, 8, 9, 10, 11, 12, 13, 14, 28]),
    ("rro", &[0, 4, 5, 6, 7, 8, 9, 11, 13, 14, 28]),
    ("segment", &[0, 4, 5, 6, 7, 8, 9, 10, 11, 12, 13, 14, 15, 28]),
    ("step", &[0, 4, 7, 8, 9, 11, 14, 15]),
    ("begin", &[0, 16]),
    ("add", &[0, 7, 8, 9, 11, 16]),
    ("finish", &[0, 5, 16]),
    ("report", &[0, 4, 5, 6, 7, 8, 9, 10, 11, 12, 13, 14, 17, 18, 19, 20, 21, 28]),
    ("remove", &[0, 17, 18, 20, 22]),
    ("compact", &[0, 17, 24]),
    ("body", &[0, 17, 18, 22]),
    ("next", &[0, 17, 23, 24]),
    ("moved", &[0, 17, 23, 24]),
    ("mark", &[0]),
    ("empty", &[0]),
    ("MPLS open", &[0, 1, 2, 3]),
    ("MPLS ero", &[0, 4, 5, 6, 7, 8, 9, 10, 12, 13, 14, 28, 29, 30]),
    ("MPLS rro", &[0, 4, 5, 6, 7, 8, 9, 13, 14, 28, 29, 30]),
    ("MPLS segment", &[0, 4, 5, 6, 7, 8, 9, 10, 12, 13, 14, 15, 28, 29, 30]),
    ("MPLS step", &[0, 4, 7, 8, 9, 14, 15, 29, 30]),
    ("MPLS add", &[0, 7, 8, 9, 16, 29, 30]),
    ("MPLS report", &[0, 4, 5, 6, 7, 8, 9, 10, 12, 13, 14, 17, 18, 19, 20, 21, 28, 29, 30]),
];

/// What a first MPLS subobject is to have had, with the number that the route ended in: each NT, labels on either side of the rule, a TTL of 0 with C and without.
const BORDERS: [(&str, usize); 13] = [
    ("NT 0", 0),
    ("NT 1", 0),
    ("NT 2", 0),
    ("NT 3", 0),
    ("NT 4", 0),
    ("NT 5", 0),
    ("NT 6", 0),
    ("label 3", 29),
    ("label 7", 0),
    ("label 15", 29),
    ("label 16", 0),
    ("TTL 0 with C", 30),
    ("TTL 0 without C", 0),
];

#[derive(Default)]
pub struct Tally {
    counts: [[u64; 31]; CALLS.len()],
    /// Acceptances of each call by each door.
    accepted: [[u64; DOORS.len()]; CALLS.len()],
    /// Routes on each border.
    borders: [u64; BORDERS.len()],
    /// Reports that took the place of the oldest removal.
    pub evictions: u64,
    /// Times that a follower was level, and held what the board held.
    pub level: u64,
}

impl Tally {
    pub fn count(&mut self, door: Door, call: Call, number: usize) {
        self.counts[call as usize][number] += 1;
        self.accepted[call as usize][door as usize] += u64::from(number == 0);
    }

    /// Looks at the first eight octets of a route's first subobject, judged in MPLS's form, and at the number answered.
    pub fn look(&mut self, first: &[u8], number: usize) {
        let &[36, _, nt, flags, a, b, c, ttl] = first else { return };
        let label = (flags & 5 == 1).then_some(u32::from_be_bytes([0, a, b, c]) >> 4);
        let named = (0..7).map(|n| nt >> 4 == n);
        let labels = [3, 7, 15, 16].map(|n| label == Some(n));
        let timed = [2, 0].map(|complete| label.is_some() && flags & 2 == complete && ttl == 0);
        for (i, on) in named.chain(labels).chain(timed).enumerate() {
            self.borders[i] += u64::from(on && number == BORDERS[i].1);
        }
    }

    pub fn calls(&self, calls: &[Call]) -> u64 {
        calls.iter().flat_map(|&call| self.counts[call as usize].iter()).sum()
    }

    /// Answers that never came up.
    pub fn missing(&self) -> Vec<String> {
        let never = |&(i, n): &(usize, usize)| self.counts[i][n] == 0;
        let all = CALLS.iter().enumerate().flat_map(|(i, (_, numbers))| numbers.iter().map(move |&n| (i, n)));
        let mut missing: Vec<String> = all.filter(never).map(|(i, n)| format!("{} {n}", CALLS[i].0)).collect();
        for (accepted, (name, _)) in self.accepted.iter().zip(CALLS) {
            missing.extend(DOORS.iter().filter(|&&door| accepted[door as usize] == 0).map(|door| format!("{name} 0 by the {door:?}")));
        }
        let borders = BORDERS.iter().zip(self.borders).filter(|&(_, count)| count == 0);
        missing.extend(borders.map(|((name, number), _)| format!("MPLS {number} of {name}")));
        if self.evictions == 0 {
            missing.push("a report in a removal's place".to_string());
        }
        if self.level == 0 {
            missing.push("a follower that is level".to_string());
        }
        missing
    }
}

impl fmt::Display for Tally {
    fn fmt(&self, f: &mut fmt::Formatter<'_>) -> fmt::Result {
        for (counts, (name, _)) in self.counts.iter().zip(CALLS) {
            write!(f, "{name:13}")?;
            for (number, count) in counts.iter().enumerate().filter(|(_, &count)| count > 0) {
                write!(f, " {number}:{count}")?;
            }
            writeln!(f)?;
        }
        let borders: Vec<String> = BORDERS.iter().zip(self.borders).map(|((name, number), count)| format!("{number} of {name}:{count}")).collect();
        writeln!(f, "MPLS {}", borders.join(", "))?;
        writeln!(f, "{} reports in a removal's place, {} times a follower was level", self.evictions, self.level)
    }
}
