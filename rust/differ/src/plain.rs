//! Both sides' answers in one form: that of the archive's records.

use reference as theirs;
use std::net::{Ipv4Addr, Ipv6Addr};
use strundevi::{raw, Form, Label, MplsSid, Nai};

pub type Verdict = (usize, usize, usize, usize);

pub fn ours(v: raw::Verdict) -> Verdict {
    (v.number, v.place, v.count, v.stray)
}

/// A refusal has the counts 0, an acceptance the place 0, and no stray ones but in a route's.
pub fn theirs<T>(answer: &theirs::Answer<T>, count: impl Fn(&T) -> usize) -> Verdict {
    match answer {
        Ok(content) => (0, 0, count(content), 0),
        Err(refusal) => (refusal.number as usize, refusal.place, 0, 0),
    }
}

/// Of a route.
pub fn their_counts(answer: &theirs::Answer<theirs::Counts>) -> Verdict {
    let (number, place, count, _) = theirs(answer, |counts| counts.segments);
    (number, place, count, answer.map_or(0, |counts| counts.stray))
}

/// What an OPEN said, as the archive has it.
pub fn opened(o: &theirs::OpenAnswer) -> raw::Opened {
    let (number, form) = o.as_ref().map_or_else(|fault| (fault.number as usize, fault.form), |_| (0, 0));
    let o = o.unwrap_or_default();
    let mpls = o.mpls.unwrap_or_default();
    raw::Opened {
        number,
        srv6: o.srv6 as u8,
        n: o.n as u8,
        limited: o.limit.is_some() as u8,
        limit: o.limit.unwrap_or(0),
        a: o.a as u8,
        r: o.r as u8,
        hasv: o.v.is_some() as u8,
        v: o.v.unwrap_or(0),
        hasm: o.m.is_some() as u8,
        m: o.m.unwrap_or(0),
        mpls: o.mpls.is_some() as u8,
        mplsn: mpls.n as u8,
        mplslimited: mpls.limit.is_some() as u8,
        form,
        mplslimit: mpls.limit.unwrap_or(0),
    }
}

/// A limit in the 16 bits that a session has for it: no route has so many segments.
fn short(limit: Option<usize>) -> u16 {
    limit.map_or(0, |limit| limit.min(65_535) as u16)
}

pub fn session(s: &theirs::Session) -> raw::Session {
    let mpls = s.mpls.unwrap_or_default();
    raw::Session {
        agreed: s.agreed as u8,
        n: s.n as u8,
        a: s.a as u8,
        r: s.r as u8,
        hasv: s.v.is_some() as u8,
        v: s.v.unwrap_or(0),
        hasm: s.m.is_some() as u8,
        m: s.m.unwrap_or(0),
        limited: s.limit.is_some() as u8,
        mpls: s.mpls.is_some() as u8,
        mplsn: mpls.n as u8,
        mplslimited: mpls.limit.is_some() as u8,
        limit: short(s.limit),
        mplslimit: short(mpls.limit),
    }
}

pub fn safe_session(s: &theirs::Session) -> strundevi::Session {
    let mpls = s.mpls.map(|m| strundevi::Mpls { n: m.n, limit: m.limit });
    strundevi::Session { agreed: s.agreed, n: s.n, limit: s.limit, a: s.a, r: s.r, v: s.v, m: s.m, mpls }
}

pub fn kind(ero: bool) -> theirs::Kind {
    if ero {
        theirs::Kind::Ero
    } else {
        theirs::Kind::Rro
    }
}

pub fn safe_kind(ero: bool) -> strundevi::Kind {
    if ero {
        strundevi::Kind::Ero
    } else {
        strundevi::Kind::Rro
    }
}

/// A segment as the archive has it.
pub fn segment(s: &theirs::Segment) -> raw::Segment {
    raw::Segment {
        loose: s.loose as u8,
        verify: s.verify as u8,
        nt: s.nt,
        behaviour: s.behaviour,
        hassid: s.has_sid as u8,
        sid: s.sid,
        nai: s.nai,
        structured: s.structured as u8,
        structure: s.structure,
        labelled: s.labelled as u8,
        complete: s.complete as u8,
    }
}

/// A segment from the archive; its flags are 0 or 1.
pub fn segment_back(s: &raw::Segment) -> Option<theirs::Segment> {
    if [s.loose, s.verify, s.hassid, s.structured, s.labelled, s.complete].iter().any(|&flag| flag > 1) {
        return None;
    }
    Some(theirs::Segment {
        loose: s.loose == 1,
        verify: s.verify == 1,
        nt: s.nt,
        behaviour: s.behaviour,
        has_sid: s.hassid == 1,
        sid: s.sid,
        nai: s.nai,
        structured: s.structured == 1,
        structure: s.structure,
        labelled: s.labelled == 1,
        complete: s.complete == 1,
    })
}

/// A segment as the safe interface tells it, part by part.
pub fn told(s: &strundevi::Segment) -> raw::Segment {
    let mut r = raw::Segment {
        loose: s.loose() as u8,
        verify: s.verify() as u8,
        nt: s.nt(),
        behaviour: s.behaviour(),
        hassid: s.sid().is_some() as u8,
        sid: s.sid().copied().unwrap_or_default(),
        structured: s.structure().is_some() as u8,
        structure: s.structure().unwrap_or_default(),
        labelled: s.labelled() as u8,
        complete: s.complete() as u8,
        ..raw::Segment::ZERO
    };
    let entry = |l: Label| l.label() << 12 | u32::from(l.tc()) << 9 | u32::from(l.s()) << 8 | u32::from(l.ttl());
    let sid = match s.mpls_sid() {
        None => None,
        Some(MplsSid::Index(index)) => Some((index, false, false)),
        Some(MplsSid::Label(label)) => Some((entry(label), true, false)),
        Some(MplsSid::Entry(label)) => Some((entry(label), true, true)),
    };
    let first = |sid: &[u8; 16]| u32::from_be_bytes([sid[0], sid[1], sid[2], sid[3]]);
    assert_eq!(sid, s.sid().map(|sid| (first(sid), s.labelled(), s.complete())));
    let mut octets = Vec::new();
    match s.nai() {
        None => {}
        Some(Nai::Node4(node)) => octets.extend(node.octets()),
        Some(Nai::Adjacency4 { local, remote }) => octets.extend(local.octets().into_iter().chain(remote.octets())),
        Some(Nai::Unnumbered { local, local_interface, remote, remote_interface }) => {
            octets.extend(local.octets().into_iter().chain(local_interface.to_be_bytes()));
            octets.extend(remote.octets().into_iter().chain(remote_interface.to_be_bytes()));
        }
        Some(Nai::Node(node)) => octets.extend(node.octets()),
        Some(Nai::Adjacency { local, remote }) => octets.extend(local.octets().into_iter().chain(remote.octets())),
        Some(Nai::LinkLocal { local, local_interface, remote, remote_interface }) => {
            octets.extend(local.octets().into_iter().chain(local_interface.to_be_bytes()));
            octets.extend(remote.octets().into_iter().chain(remote_interface.to_be_bytes()));
        }
    }
    assert_eq!((octets.as_slice(), s.nai().map_or(0, |nai| nai.nt())), (s.nai_octets(), s.nt()));
    r.nai[..octets.len()].copy_from_slice(&octets);
    r
}

/// The segment built by the safe interface for a route of this form, if that has it: a SID or an NAI is there, NT is one of a form's, and nothing stands in absent
/// parts.
pub fn built(s: &theirs::Segment, form: Form) -> Option<strundevi::Segment> {
    let address = |at: usize| Ipv6Addr::from(<[u8; 16]>::try_from(&s.nai[at..at + 16]).unwrap());
    let four = |at: usize| <[u8; 4]>::try_from(&s.nai[at..at + 4]).unwrap();
    let (node, interface) = (|at: usize| Ipv4Addr::from(four(at)), |at: usize| u32::from_be_bytes(four(at)));
    let nai = match s.nt {
        0 => None,
        1 => Some(Nai::Node4(node(0))),
        2 => Some(Nai::Node(address(0))),
        3 => Some(Nai::Adjacency4 { local: node(0), remote: node(4) }),
        4 => Some(Nai::Adjacency { local: address(0), remote: address(16) }),
        5 => Some(Nai::Unnumbered { local: node(0), local_interface: interface(4), remote: node(8), remote_interface: interface(12) }),
        6 => Some(Nai::LinkLocal { local: address(0), local_interface: interface(16), remote: address(20), remote_interface: interface(36) }),
        _ => return None,
    };
    let zero = |octets: &[u8]| octets.iter().all(|&o| o == 0);
    let marked = s.labelled || s.complete;
    let built = if !s.has_sid {
        if marked || !zero(&s.sid) {
            return None;
        }
        strundevi::Segment::with_nai(nai?, s.behaviour)
    } else if marked || form == Form::Mpls {
        let sid = u32::from_be_bytes(s.sid[..4].try_into().unwrap());
        let label = Label::new(sid >> 12, (sid >> 9 & 7) as u8, sid >> 8 & 1 == 1, sid as u8)?;
        let sid = match (s.labelled, s.complete) {
            (false, false) => MplsSid::Index(sid),
            (true, false) => MplsSid::Label(label),
            (true, true) => MplsSid::Entry(label),
            (false, true) => return None,
        };
        if s.behaviour != 0 || !zero(&s.sid[4..]) {
            return None;
        }
        strundevi::Segment::with_mpls_sid(sid)
    } else {
        strundevi::Segment::with_sid(s.sid, s.behaviour)
    };
    let mut built = nai.map_or(built, |nai| built.and_nai(nai));
    if s.structured {
        built = built.and_structure(s.structure);
    }
    let size = theirs::mpls::nai_size(s.nt).unwrap_or(0);
    let absent = zero(&s.nai[size..]) && (s.structured || zero(&s.structure));
    absent.then_some(built.and_loose(s.loose).and_verify(s.verify))
}
