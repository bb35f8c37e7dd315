//! A PCC OPEN, a PCE OPEN and an ERO, one behind the other, judged by the proved library as the checking program does: each cut by its own length
//! field (too little left, or a length under 4: all the rest), the setup type that of a form (the checking program's is 3, SRv6's), octets behind the ERO
//! ignored.

use strundevi::{judge, read_open, segment, Form, Kind, OpenRefusal, PcErr, Refusal, Segment, Session, Setup, Strays};

/// The object that a refusal is about, and the octet of the input where it begins.
#[derive(Clone, Copy)]
pub struct Object {
    pub name: &'static str,
    pub start: usize,
}

pub enum Checked<'a> {
    Refused(Object, Why),
    Accepted(Route<'a>),
}

/// Why something is refused, whose fault it is in an OPEN of two forms, and what to send to the peer.
pub struct Why {
    pub refusal: Refusal,
    pub form: Option<Form>,
    pub pcerr: Option<PcErr>,
}

impl Why {
    fn open(refusal: OpenRefusal) -> Why {
        Why { refusal: refusal.into(), form: refusal.form, pcerr: refusal.pcerr() }
    }

    fn route(refusal: Refusal, form: Form) -> Why {
        Why { refusal, form: None, pcerr: refusal.number.pcerr(Kind::Ero, form) }
    }
}

/// An accepted route.
pub struct Route<'a> {
    pub count: usize,
    pub stray: usize,
    pub form: Form,
    ero: &'a [u8],
    session: Session,
}

impl Route<'_> {
    pub fn segments(&self) -> impl Iterator<Item = (Segment, Strays)> + '_ {
        (0..self.count as u64).map_while(|i| segment(self.ero, Kind::Ero, &self.session, self.form.pst(), &[], i).ok())
    }
}

fn cut(octets: &[u8]) -> (&[u8], &[u8]) {
    let size = match octets {
        [_, _, high, low, ..] => u16::from_be_bytes([*high, *low]) as usize,
        _ => 0,
    };
    if size < 4 || size > octets.len() {
        return (octets, &[]);
    }
    octets.split_at(size)
}

pub fn check(octets: &[u8], form: Form) -> Checked<'_> {
    let (pcc_octets, rest) = cut(octets);
    let (pce_octets, rest) = cut(rest);
    let (ero, _) = cut(rest);
    let pce_start = pcc_octets.len();
    let pcc = read_open(Setup::FIRST_TWO, pcc_octets);
    let pce = read_open(Setup::FIRST_TWO, pce_octets);
    if let Err(refusal) = pcc {
        return Checked::Refused(Object { name: "PCC's OPEN", start: 0 }, Why::open(refusal));
    }
    if let Err(refusal) = pce {
        return Checked::Refused(Object { name: "PCE's OPEN", start: pce_start }, Why::open(refusal));
    }
    let session = Session::agree(&pcc, &pce);
    match judge(ero, Kind::Ero, &session, form.pst(), &[]) {
        Err(refusal) => Checked::Refused(Object { name: "ERO", start: pce_start + pce_octets.len() }, Why::route(refusal, form)),
        Ok(counts) => Checked::Accepted(Route { count: counts.segments, stray: counts.stray, form, ero, session }),
    }
}
