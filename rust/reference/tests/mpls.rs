//! The MPLS form: RFC 8664's tables and document 02's numbers, on either side of each rule.

use reference::*;

const AT: Setup = Setup { a: 0, r: 1 };
const NODE: [u8; 4] = [192, 0, 2, 1];
/// Label 16001, TC 0, S 0, TTL 0.
const ENTRY: [u8; 4] = [0x03, 0xE8, 0x10, 0x00];

const M: u8 = 1;
const C: u8 = 2;
const S: u8 = 4;
const F: u8 = 8;
const V: u8 = 16;

fn refused<T>(number: u8, place: usize) -> Answer<T> {
    Err(Refusal { number, place })
}

fn clean(segments: usize) -> Answer<Counts> {
    Ok(Counts { segments, stray: 0 })
}

fn at_fault(number: u8, form: u8) -> OpenAnswer {
    Err(Fault { number, form })
}

fn sized(mut octets: Vec<u8>) -> Vec<u8> {
    octets.resize(octets.len().div_ceil(4) * 4, 0);
    let size = octets.len() as u16;
    octets[2..4].copy_from_slice(&size.to_be_bytes());
    octets
}

fn tlv(kind: u8, value: &[u8]) -> Vec<u8> {
    let mut octets = vec![0, kind, 0, value.len() as u8];
    octets.extend_from_slice(value);
    octets.resize(octets.len().div_ceil(4) * 4, 0);
    octets
}

fn open(types: &[u8], subs: &[Vec<u8>]) -> OpenAnswer {
    let mut inner = vec![0, 0, 0, types.len() as u8];
    inner.extend_from_slice(types);
    inner.resize(inner.len().div_ceil(4) * 4, 0);
    inner.extend(subs.concat());
    let mut octets = vec![1, 0x10, 0, 0, 0x20, 30, 120, 7];
    octets.extend(tlv(34, &inner));
    read_open(AT, &sized(octets))
}

fn route(kind: u8, subs: &[Vec<u8>]) -> Vec<u8> {
    sized([vec![kind, 0x10, 0, 0], subs.concat()].concat())
}

/// A subobject of these flags whose length is the true one.
fn sub(nt: u8, flags: u8, sid: &[u8], nai: &[u8]) -> Vec<u8> {
    [&[36, (4 + sid.len() + nai.len()) as u8, nt << 4, flags], sid, nai].concat()
}

fn free() -> Session {
    Session { mpls: Some(Mpls { n: true, limit: None }), ..Session::default() }
}

fn ero(subs: &[Vec<u8>]) -> Answer<Counts> {
    judge(&route(7, subs), Kind::Ero, &free(), 1, &[])
}

#[test]
fn capability() {
    let mpls = |n, limit| Ok(Open { mpls: Some(Mpls { n, limit }), ..Open::default() });
    let sub26 = |flags, depth| tlv(26, &[0, 0, flags, depth]);
    assert_eq!(open(&[1], &[sub26(0, 9)]), mpls(false, Some(9)));
    assert_eq!(open(&[1], &[sub26(2, 255)]), mpls(true, Some(255)));
    assert_eq!(open(&[1], &[sub26(1, 0)]), mpls(false, None));
    assert_eq!(open(&[1], &[sub26(3, 9)]), mpls(true, None));
    assert_eq!(open(&[1], &[tlv(26, &[255, 255, 0xFC, 1])]), mpls(false, Some(1)));
    // the first counts
    assert_eq!(open(&[1], &[sub26(2, 4), sub26(0, 0)]), mpls(true, Some(4)));
    assert_eq!(open(&[1], &[sub26(2, 4), tlv(26, &[])]), mpls(true, Some(4)));
    // ignored without type 1
    for types in [&[0][..], &[], &[2, 4]] {
        for value in [&[0, 0, 0, 0][..], &[], &[1, 2, 3], &[0, 0, 2, 9, 0]] {
            assert_eq!(open(types, &[tlv(26, value)]), Ok(Open::default()));
        }
    }
    // 1, 2, 3 of 26, each before 27's
    let good27 = tlv(27, &[0, 0, 0, 0, 44, 4]);
    let (odd27, wrong27) = (tlv(27, &[0, 0, 0, 0, 44]), tlv(27, &[0, 0, 0, 0, 7, 4]));
    for n in [0, 1, 2, 3, 5, 6, 8, 12] {
        assert_eq!(open(&[1], &[tlv(26, &vec![1; n])]), at_fault(1, 1));
        assert_eq!(open(&[1, 3], &[odd27.clone(), tlv(26, &vec![1; n])]), at_fault(1, 1));
    }
    assert_eq!(open(&[1], &[]), at_fault(2, 1));
    assert_eq!(open(&[3, 1], &[]), at_fault(2, 1));
    assert_eq!(open(&[3, 1], &[odd27.clone()]), at_fault(1, 3));
    assert_eq!(open(&[3, 1], &[wrong27.clone()]), at_fault(2, 1));
    assert_eq!(open(&[3, 1], &[sub26(0, 0)]), at_fault(2, 3));
    assert_eq!(open(&[3, 1], &[sub26(0, 0), odd27]), at_fault(1, 3));
    assert_eq!(open(&[1], &[sub26(0, 0)]), at_fault(3, 1));
    assert_eq!(open(&[1], &[sub26(2, 0)]), at_fault(3, 1));
    assert_eq!(open(&[3, 1], &[wrong27.clone(), sub26(0, 0)]), at_fault(3, 1));
    assert_eq!(open(&[3, 1], &[wrong27, sub26(0, 1)]), at_fault(3, 3));
    let both = open(&[1, 3], &[sub26(2, 6), good27]).unwrap();
    assert_eq!(both, Open { srv6: true, limit: Some(4), v: Some(4), mpls: Some(Mpls { n: true, limit: Some(6) }), ..Open::default() });
}

#[test]
fn sessions() {
    let sub26 = |flags, depth| tlv(26, &[0, 0, flags, depth]);
    let pcc = open(&[1], &[sub26(2, 3)]);
    let pce = open(&[1], &[sub26(1, 0)]);
    let none = open(&[0], &[]);
    let agreed = Session { mpls: Some(Mpls { n: true, limit: Some(3) }), ..Session::default() };
    assert_eq!(Session::agree(&pcc, &pce), agreed);
    assert_eq!(Session::agree(&pce, &pcc), Session { mpls: Some(Mpls { n: false, limit: None }), ..Session::default() });
    assert_eq!(Session::agree(&pcc, &none), Session::default());
    assert_eq!(Session::agree(&none, &pce), Session::default());
    assert_eq!(Session::agree(&at_fault(1, 1), &pce), Session::default());
    // one form agreed says nothing of the other
    let both = open(&[1, 3], &[sub26(0, 2), tlv(27, &[0, 0, 0, 2])]);
    assert!(Session::agree(&both, &pce).mpls.is_some() && !Session::agree(&both, &pce).agreed);
    let s = Session::agree(&both, &both);
    assert!(s.agreed && s.n && s.mpls == Some(Mpls { n: false, limit: Some(2) }));
    // the limit of the one is not the other's
    let label = sub(0, M | F, &ENTRY, &[]);
    assert_eq!(judge(&route(7, &vec![label.clone(); 2]), Kind::Ero, &s, 1, &[]), clean(2));
    assert_eq!(judge(&route(7, &vec![label.clone(); 3]), Kind::Ero, &s, 1, &[]), refused(12, 20));
    assert_eq!(judge(&route(8, &vec![label; 3]), Kind::Rro, &s, 1, &[]), clean(3));
}

/// RFC 8664, 5.2.1: the length for each NT, with and without a SID.
#[test]
fn lengths() {
    for (nt, without, with) in [(0, 4, 8), (1, 8, 12), (2, 20, 24), (3, 12, 16), (4, 36, 40), (5, 20, 24), (6, 44, 48)] {
        for size in (4..=60).step_by(4) {
            for flags in 0..16 {
                let sid_gone = flags & S != 0;
                let nai_gone = flags & F != 0;
                let mut octets = vec![36, size as u8, nt << 4, flags];
                octets.resize(size, 0x11);
                let expected = if sid_gone { without } else { with };
                let bits = sid_gone && flags & (M | C) != 0 || flags & C != 0 && flags & M == 0;
                let answer = if sid_gone && nai_gone {
                    refused(9, 4)
                } else if nai_gone != (nt == 0) || size != expected || bits {
                    refused(7, 4)
                } else {
                    clean(1)
                };
                assert_eq!(ero(&[octets]), answer, "NT {nt}, flags {flags}, {size} octets");
            }
        }
    }
    for nt in 7..16 {
        for flags in 0..16 {
            assert_eq!(ero(&[sub(nt, flags, &ENTRY, &[])]), refused(8, 4));
        }
    }
}

#[test]
fn labels() {
    let entry = |label: u32, rest: u32| (label << 12 | rest).to_be_bytes();
    for label in [0, 1, 2, 3, 4, 5, 6, 7, 8, 12, 13, 14, 15, 16, 17, 16001, 0xFFFFF] {
        for rest in [0, 0xF00, 0x0FF, 0xFFF, 1, 0x100] {
            let ttl = rest & 0xff;
            let value = label > 15 || label == 7;
            let sid = entry(label, rest);
            for v in [0, V] {
                assert_eq!(ero(&[sub(0, v | F, &sid, &[])]), clean(1));
                assert_eq!(ero(&[sub(0, v | F | M, &sid, &[])]), if value { clean(1) } else { refused(29, 0) });
                let complete = if !value { refused(29, 0) } else if ttl == 0 { refused(30, 0) } else { clean(1) };
                assert_eq!(ero(&[sub(0, v | F | M | C, &sid, &[])]), complete);
                assert_eq!(judge(&route(8, &[sub(0, v | F | M | C, &sid, &[])]), Kind::Rro, &free(), 1, &[]), complete);
            }
            // an index, whatever it is
            assert_eq!(ero(&[sub(1, 0, &sid, &NODE)]), clean(1));
        }
    }
    // the first broken rule in the route; 12 goes last
    let (good, bad) = (sub(0, M | F, &ENTRY, &[]), sub(0, M | F, &entry(3, 0), &[]));
    assert_eq!(ero(&[good.clone(), bad.clone(), sub(9, 0, &[], &[])]), refused(29, 0));
    assert_eq!(ero(&[good.clone(), sub(9, 0, &[], &[]), bad.clone()]), refused(8, 12));
    let two = Session { mpls: Some(Mpls { n: false, limit: Some(2) }), ..Session::default() };
    assert_eq!(judge(&route(7, &[good.clone(), good.clone(), good, bad]), Kind::Ero, &two, 1, &[]), refused(29, 0));
}

#[test]
fn forms() {
    let label = sub(0, M | F, &ENTRY, &[]);
    let srv6 = [&[40, 24, 0, 2, 0, 0, 0, 1][..], &[0x20; 16]].concat();
    let both = Session { agreed: true, n: true, ..free() };
    let judged = |subs: &[Vec<u8>], pst| judge(&route(7, subs), Kind::Ero, &both, pst, &[]);
    assert_eq!(judged(&[label.clone()], 1), clean(1));
    assert_eq!(judged(&[srv6.clone()], 3), clean(1));
    assert_eq!(judged(&[srv6.clone()], 1), refused(14, 0));
    assert_eq!(judged(&[label.clone()], 3), refused(14, 0));
    for pst in [0, 2, 4, 257, 259, u64::MAX] {
        assert_eq!(judged(&[srv6.clone()], pst), refused(13, 0));
        assert_eq!(judged(&[label.clone()], pst), refused(14, 0));
    }
    for (subs, place) in [([label.clone(), srv6.clone()], 12), ([srv6.clone(), label.clone()], 28)] {
        assert_eq!(judged(&subs, 1), refused(6, place));
        assert_eq!(judged(&subs, 3), refused(6, place));
    }
    let other = vec![1, 8, 10, 0, 0, 1, 32, 0];
    assert_eq!(judged(&[other.clone(), srv6.clone()], 1), refused(14, 0));
    assert_eq!(judged(&[other, label.clone()], 1), refused(6, 12));
    assert_eq!(judge(&route(7, &[label.clone()]), Kind::Ero, &Session { agreed: true, ..Session::default() }, 1, &[]), refused(13, 0));
    assert_eq!(judge(&route(7, &[srv6]), Kind::Ero, &free(), 3, &[]), refused(13, 0));
    // L is a bit of the type in an RRO
    let loose = [&[0xA4], &label[1..]].concat();
    assert_eq!(judge(&route(8, &[loose.clone()]), Kind::Rro, &both, 1, &[]), refused(14, 0));
    assert!(segment(&route(7, &[loose]), Kind::Ero, &both, 1, &[], 0).unwrap().0.loose);
    // 28 goes first here too, and 10 is N's of MPLS
    assert_eq!(judge(&[], Kind::Rro, &both, 1, &[0; 15]), refused(28, 0));
    let nai_only = route(7, &[label, sub(1, S, &[], &NODE)]);
    let no_n = Session { mpls: Some(Mpls::default()), ..both };
    assert_eq!(judge(&nai_only, Kind::Ero, &no_n, 1, &[]), refused(10, 12));
    assert_eq!(judge(&nai_only, Kind::Ero, &both, 1, &[]), clean(2));
}

#[test]
fn strays() {
    for bit in 0..12 {
        let set = 1u16 << bit;
        let flags = u16::from(M | F) | set;
        let octets = [&[36, 8, (flags >> 8) as u8, flags as u8], &ENTRY[..]].concat();
        let shown = segment(&route(7, &[octets.clone()]), Kind::Ero, &free(), 1, &[], 0);
        match bit {
            // a bit of V, F, C (with TTL 0) or M
            0 | 3 | 4 => assert_eq!(shown.unwrap().1, Strays::default()),
            1 => assert_eq!(shown, refused(30, 0)),
            2 => assert_eq!(shown, refused(9, 4)),
            _ => {
                assert_eq!(shown.unwrap().1, Strays { flags: set, structure: 0, reserved: false });
                assert_eq!(ero(&[octets.clone(), octets]), Ok(Counts { segments: 2, stray: 2 }));
            }
        }
    }
}

#[test]
fn written_route_is_the_one_read() {
    let nai: Vec<u8> = (1..=40).collect();
    let mut subs = Vec::new();
    for (nt, size) in [(0, 0), (1, 4), (2, 16), (3, 8), (4, 32), (5, 16), (6, 40)] {
        let gone = if nt == 0 { F } else { 0 };
        for flags in [0, M, V, V | M] {
            subs.push(sub(nt, gone | flags, &ENTRY, &nai[..size]));
        }
        subs.push(sub(nt, gone | M | C, &[0x03, 0xE8, 0x11, 0x40], &nai[..size]));
        if nt != 0 {
            subs.push(sub(nt, S, &[], &nai[..size]));
            subs.push([&[0xA4], &sub(nt, S | V, &[], &nai[..size])[1..]].concat());
        }
    }
    let object = route(7, &subs);
    let mut buffer = vec![0xEE; object.len() + 3];
    let mut writer = Writer::begin(&mut buffer, Kind::Ero, 1).unwrap();
    assert_eq!(writer.finish(&mut buffer), refused(5, 0));
    let mut at = 4;
    for i in 0..subs.len() {
        let read = segment(&object, Kind::Ero, &free(), 1, &[], i as u64).unwrap().0;
        let (stepped, next) = step(&object, Kind::Ero, 1, at).unwrap();
        assert_eq!(stepped, read);
        at = next;
        writer = writer.add(&mut buffer, &read).unwrap();
        assert_eq!(writer.at, at);
    }
    writer.finish(&mut buffer).unwrap();
    assert_eq!(buffer[..object.len()], object);
    assert_eq!(buffer[object.len()..], [0xEE; 3]);
    assert_eq!(step(&object, Kind::Ero, 3, 4), refused(14, 0));
}

#[test]
fn adding() {
    let mut buffer = [0; 64];
    let writer = Writer::begin(&mut buffer, Kind::Ero, 1).unwrap();
    let mut sid = [0; 16];
    sid[..4].copy_from_slice(&ENTRY);
    let label = Segment { has_sid: true, sid, labelled: true, ..Segment::default() };
    assert_eq!(writer.add(&mut buffer, &label).map(|w| w.at), Ok(12));
    assert_eq!(buffer[4..12], [36, 8, 0, 9, 0x03, 0xE8, 0x10, 0]);
    let mut add = |segment: Segment| writer.add(&mut buffer, &segment).map(|w| w.at);
    let (mut long, mut three, mut seven, mut nai) = (sid, sid, sid, [0; 40]);
    long[4] = 1;
    three[..4].copy_from_slice(&[0, 0, 0x30, 0]);
    seven[..4].copy_from_slice(&[0, 0, 0x70, 0]);
    nai[..4].copy_from_slice(&NODE);
    let rows = [
        (Segment { nt: 7, behaviour: 1, ..label }, 8),
        (Segment { has_sid: false, sid: [0; 16], behaviour: 1, ..label }, 9),
        (Segment { behaviour: 1, ..label }, 7),
        (Segment { structured: true, ..label }, 7),
        (Segment { structure: [0, 0, 0, 1], ..label }, 7),
        (Segment { sid: long, ..label }, 7),
        (Segment { nai, ..label }, 7),
        (Segment { nt: 1, nai, has_sid: false, ..label }, 7),
        (Segment { nt: 1, nai, has_sid: false, sid: [0; 16], ..label }, 7),
        (Segment { labelled: false, complete: true, ..label }, 7),
        (Segment { sid: three, behaviour: 1, ..label }, 7),
        (Segment { sid: three, complete: true, ..label }, 29),
        (Segment { complete: true, ..label }, 30),
    ];
    for (segment, number) in rows {
        assert_eq!(add(segment), refused(number, 0), "{segment:?}");
    }
    assert_eq!(add(Segment { sid: seven, ..label }), Ok(12));
    assert_eq!(add(Segment { sid: three, labelled: false, ..label }), Ok(12));
    assert_eq!(add(Segment { nt: 1, nai, has_sid: false, sid: [0; 16], labelled: false, ..label }), Ok(12));
    // in an RRO neither L nor V, and 29 and 30 as in an ERO
    let rro = Writer::begin(&mut buffer, Kind::Rro, 1).unwrap();
    for (segment, number) in [(Segment { loose: true, ..label }, 7), (Segment { verify: true, ..label }, 7), (Segment { sid: three, ..label }, 29)] {
        assert_eq!(rro.add(&mut buffer, &segment), refused(number, 0));
    }
    // 16 comes last
    let short = Writer { at: 60, ..writer };
    assert_eq!(short.add(&mut buffer, &label), refused(16, 0));
    assert_eq!(short.add(&mut buffer, &Segment { complete: true, ..label }), refused(30, 0));
    // M and C are not SRv6's; a setup type that is not 1 is
    for pst in [0, 3, 257] {
        let srv6 = Writer::begin(&mut buffer, Kind::Ero, pst).unwrap();
        assert_eq!(srv6.form, 3);
        assert_eq!(srv6.add(&mut buffer, &label), refused(7, 0));
        assert_eq!(srv6.add(&mut buffer, &Segment { labelled: false, complete: true, ..label }), refused(7, 0));
        assert_eq!(srv6.add(&mut buffer, &Segment { nt: 1, ..label }), refused(8, 0));
        assert_eq!(srv6.add(&mut buffer, &Segment { labelled: false, ..label }).map(|w| w.at), Ok(28));
    }
}

#[test]
fn a_board_of_both_forms() {
    let both = Session { agreed: true, n: true, ..free() };
    let label = route(7, &[sub(0, M | F, &ENTRY, &[])]);
    let node = route(7, &[sub(1, S, &[], &NODE)]);
    let srv6 = route(7, &[[&[40, 24, 0, 2, 0, 0, 0, 1][..], &[0x20; 16]].concat()]);
    let mut store = vec![0; STORE_OCTETS];
    let mut board = Board::default();
    assert_eq!(board.report(&mut store, 5, &label, &both, 1, &[]), clean(1));
    assert_eq!(board.report(&mut store, 6, &srv6, &both, 3, &[]), clean(1));
    assert_eq!(board.report(&mut store, 7, &srv6, &both, 1, &[]), refused(14, 0));
    assert_eq!(board.report(&mut store, 7, &srv6, &both, 2, &[]), refused(13, 0));
    assert_eq!(board.body(&store, 5), Ok((1, &label[4..])));
    assert_eq!(board.body(&store, 6), Ok((3, &srv6[4..])));
    assert_eq!(board.next(&store, 0, 0), Ok(Change::Path { key: 5, version: 1, form: 1, place: 0, length: 8 }));
    assert_eq!(board.next(&store, 0, 1), Ok(Change::Path { key: 6, version: 2, form: 3, place: 1, length: 24 }));
    // a key may change its form, and a removal has none
    assert_eq!(board.report(&mut store, 6, &node, &both, 1, &[]), clean(1));
    assert_eq!(board.body(&store, 6), Ok((1, &node[4..])));
    assert_eq!(board.remove(&store, 5), Ok(()));
    assert_eq!(board.forms[..3], [0, 1, 0]);
    assert_eq!(board.compact(&store, 4), Ok(()));
    // proper only so
    let proper = |change: fn(&mut Board)| {
        let mut b = board;
        change(&mut b);
        b.is_proper()
    };
    assert!(proper(|_| ()));
    assert!(!proper(|b| b.forms[0] = 1));
    assert!(!proper(|b| b.forms[1] = 0));
    assert!(!proper(|b| b.forms[1] = 2));
    assert!(!proper(|b| b.forms[1] = 3));
    assert!(proper(|b| (b.forms[1], b.lengths[1]) = (3, 24)));
    assert!(!proper(|b| b.lengths[1] = 4));
    assert!(!proper(|b| b.lengths[1] = 10));
    assert!(proper(|b| b.lengths[1] = 384));
    assert!(!proper(|b| b.lengths[1] = 388));
    assert!(!proper(|b| (b.forms[1], b.lengths[1], b.versions[1], b.version) = (1, 0, 9, 9)));
    assert!(proper(|b| (b.forms[1], b.lengths[1], b.versions[1], b.version) = (0, 0, 9, 9)));
    let long = route(7, &vec![sub(0, M | F, &ENTRY, &[]); 48]);
    assert_eq!(board.report(&mut store, 9, &long, &both, 1, &[]), clean(48));
    assert_eq!(board.report(&mut store, 9, &route(7, &vec![sub(0, M | F, &ENTRY, &[]); 49]), &both, 1, &[]), refused(19, 0));
}
