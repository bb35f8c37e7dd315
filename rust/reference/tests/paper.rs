//! The paper's own examples, on either side of each rule.

use reference::*;

const AT: Setup = Setup { a: 0, r: 1 };

const O: [u8; 32] = [
    0x01, 0x10, 0x00, 0x20, 0x20, 0x1E, 0x78, 0x07, 0x00, 0x22, 0x00, 0x12, 0x00, 0x00, 0x00, 0x01, 0x03, 0x00, 0x00, 0x00, 0x00, 0x1B, 0x00, 0x06, 0x00, 0x00,
    0x00, 0x00, 0x2C, 0x04, 0x00, 0x00,
];
const E: [u8; 28] = [
    0x07, 0x10, 0x00, 0x1C, 0x28, 0x18, 0x00, 0x02, 0x00, 0x00, 0x00, 0x01, 0x20, 0x01, 0x0D, 0xB8, 0x00, 0x00, 0x00, 0x01, 0x00, 0x00, 0x00, 0x00, 0x00, 0x00,
    0x00, 0x01,
];

fn with<const N: usize>(mut octets: [u8; N], at: usize, value: u8) -> [u8; N] {
    octets[at] = value;
    octets
}

fn refused<T>(number: u8, place: usize) -> Answer<T> {
    Err(Refusal { number, place })
}

fn at_fault(number: u8, form: u8) -> OpenAnswer {
    Err(Fault { number, form })
}

fn session() -> Session {
    Session::agree(&read_open(AT, &O), &read_open(AT, &O))
}

/// A route of `n` segments like E's.
fn route(n: usize) -> Vec<u8> {
    let mut octets = E[..4].to_vec();
    for _ in 0..n {
        octets.extend_from_slice(&E[4..]);
    }
    let size = octets.len() as u16;
    octets[2..4].copy_from_slice(&size.to_be_bytes());
    octets
}

/// E with a structure of these bit lengths.
fn structured(bits: [u8; 4]) -> Vec<u8> {
    let mut octets = E.to_vec();
    octets[3] = 36;
    octets[5] = 32;
    octets[7] = 6;
    octets.extend_from_slice(&bits);
    octets.extend_from_slice(&[0; 4]);
    octets
}

#[test]
fn opens() {
    assert_eq!(read_open(AT, &O), Ok(Open { srv6: true, limit: Some(4), v: Some(4), ..Open::default() }));
    assert_eq!(read_open(AT, &with(O, 16, 0)), Ok(Open::default()));
    assert_eq!(read_open(AT, &with(O, 28, 0)), at_fault(3, 3));
    assert_eq!(read_open(AT, &with(O, 27, 1)), Ok(Open { srv6: true, ..Open::default() }));
    assert_eq!(read_open(AT, &with(with(O, 27, 1), 28, 0)), Ok(Open { srv6: true, ..Open::default() }));
    assert_eq!(read_open(AT, &with(O, 27, 2)), Ok(Open { srv6: true, n: true, limit: Some(4), v: Some(4), ..Open::default() }));
    assert_eq!(read_open(AT, &with(O, 21, 26)), at_fault(2, 3));
    assert_eq!(read_open(AT, &with(O, 1, 0x1F)), read_open(AT, &O));
    for n in 0..O.len() {
        assert_eq!(read_open(AT, &O[..n]), at_fault(1, 0));
    }
    for (at, value) in [(0, 2), (1, 0x20), (3, 0x24), (4, 0x40), (11, 21), (11, 17), (15, 15), (23, 7)] {
        assert_eq!(read_open(AT, &with(O, at, value)), at_fault(1, 0), "octet {at}");
    }
    assert_eq!(read_open(AT, &with(O, 23, 5)), at_fault(1, 3));
}

#[test]
fn last_padding_only_may_be_cut() {
    let open = |inner: &[u8]| {
        let mut octets = vec![1, 0x10, 0, 0, 0x20, 0, 0, 0, 0, 34, 0, inner.len() as u8];
        octets.extend_from_slice(inner);
        octets.resize(octets.len().div_ceil(4) * 4, 0);
        octets[3] = octets.len() as u8;
        read_open(AT, &octets)
    };
    let good = Ok(Open { srv6: true, limit: Some(10), m: Some(9), ..Open::default() });
    let head = [0, 0, 0, 1, 3, 0, 0, 0, 0, 27, 0, 6, 0, 0, 0, 0, 41, 9];
    assert_eq!(open(&head), good);
    for n in 1..=2 {
        assert_eq!(open(&[&head[..], &vec![0; n]].concat()), good);
    }
    for n in 3..=5 {
        assert_eq!(open(&[&head[..], &vec![0; n]].concat()), at_fault(1, 0));
    }
    assert_eq!(open(&[&head[..], &[0; 6]].concat()), good);
    for n in 0..head.len() {
        if n != 8 {
            assert_eq!(open(&head[..n]), at_fault(1, 0), "{n}");
        }
    }
    assert_eq!(open(&head[..8]), at_fault(2, 3));
}

/// So many segments, none of them stray.
fn clean(segments: usize) -> Answer<Counts> {
    Ok(Counts { segments, stray: 0 })
}

#[test]
fn strays() {
    let s = session();
    let judged = |object: &[u8]| judge(object, Kind::Ero, &s, 3, &[]).unwrap();
    let shown = |object: &[u8]| segment(object, Kind::Ero, &s, 3, &[], 0).unwrap().1;
    // each unassigned flag, each reserved octet; a segment counts once
    for (at, value, flags, reserved) in
        [(6, 0x01, 0x100, false), (6, 0x0f, 0xf00, false), (7, 0x12, 0x010, false), (7, 0xf2, 0x0f0, false), (8, 1, 0, true), (9, 0x80, 0, true)]
    {
        let object = with(E, at, value);
        assert_eq!((judged(&object), shown(&object)), (Counts { segments: 1, stray: 1 }, Strays { flags, structure: 0, reserved }), "octet {at}");
    }
    let both = with(with(E, 6, 0x0f), 8, 1);
    assert_eq!(judged(&both).stray, 1);
    // of a structure the last four octets
    for at in 28..36 {
        let mut object = structured([0; 4]);
        object[at] = 1;
        let x = Strays { flags: 0, structure: (at == 35) as u8, reserved: (32..35).contains(&at) };
        assert_eq!((judged(&object), shown(&object)), (Counts { segments: 1, stray: x.any() as usize }, x), "octet {at}");
    }
    // no strays: V, the header's low bits, T where S is 1, V in an RRO
    assert_eq!(judged(&with(E, 7, 0x0a)).stray, 0);
    assert_eq!(judged(&with(E, 1, 0x1f)).stray, 0);
    let free = Session { agreed: true, n: true, ..Session::default() };
    assert_eq!(judge(&with(with(E, 6, 0x20), 7, 5), Kind::Ero, &free, 3, &[]), clean(1));
    assert_eq!(judge(&with(with(E, 0, 8), 7, 0x0a), Kind::Rro, &free, 3, &[]), clean(1));
}

#[test]
fn limits() {
    let limit = |flags: u8, pairs: &[u8]| {
        let mut octets = O[..28].to_vec();
        octets.extend_from_slice(pairs);
        octets[11] = (octets.len() - 12) as u8;
        octets[23] = (octets.len() - 24) as u8;
        octets[27] = flags;
        octets.resize(octets.len().div_ceil(4) * 4, 0);
        octets[3] = octets.len() as u8;
        read_open(AT, &octets).unwrap().limit
    };
    let rows: [(&[u8], Option<usize>); 18] = [
        (&[], None),
        (&[42, 1], None),
        (&[45, 0, 42, 0], None),
        (&[44, 0], Some(1)),
        (&[44, 1], Some(1)),
        (&[44, 2], Some(2)),
        (&[44, 255], Some(255)),
        (&[41, 0], Some(1)),
        (&[41, 1], Some(2)),
        (&[41, 255], Some(256)),
        (&[42, 1, 44, 7, 45, 2], Some(7)),
        (&[44, 4, 41, 2], Some(3)),
        (&[41, 4, 44, 4], Some(4)),
        (&[41, 3, 44, 5], Some(4)),
        (&[44, 5, 44, 3, 44, 4], Some(3)),
        (&[41, 5, 41, 3, 41, 4], Some(4)),
        (&[44, 9, 41, 9, 44, 6, 41, 7], Some(6)),
        (&[44, 9, 41, 9, 44, 8, 41, 6], Some(7)),
    ];
    for (pairs, most) in rows {
        assert_eq!(limit(0, pairs), most, "{pairs:?}");
        assert_eq!(limit(1, pairs), None, "{pairs:?}");
    }
}

#[test]
fn routes() {
    let s = session();
    assert_eq!(s, Session { agreed: true, limit: Some(4), v: Some(4), ..Session::default() });
    assert_eq!(judge(&E, Kind::Ero, &s, 3, &[]), clean(1));
    assert_eq!(judge(&E, Kind::Ero, &s, 1, &[]), refused(14, 0));
    assert_eq!(judge(&E, Kind::Ero, &Session::agree(&read_open(AT, &O), &read_open(AT, &with(O, 16, 0))), 3, &[]), refused(13, 0));
    assert_eq!(judge(&with(E, 7, 3), Kind::Ero, &s, 3, &[]), refused(9, 4));
    assert_eq!(judge(&with(E, 7, 6), Kind::Ero, &s, 3, &[]), refused(7, 4));
    assert_eq!(judge(&structured([40, 24, 16, 48]), Kind::Ero, &s, 3, &[]), clean(1));
    assert_eq!(judge(&structured([40, 24, 16, 49]), Kind::Ero, &s, 3, &[]), refused(11, 4));
    assert_eq!(judge(&structured([64; 4]), Kind::Ero, &s, 3, &[]), refused(11, 4));
    assert_eq!(judge(&route(4), Kind::Ero, &s, 3, &[]), clean(4));
    assert_eq!(judge(&route(5), Kind::Ero, &s, 3, &[]), refused(12, 100));
    assert_eq!(judge(&E, Kind::Rro, &s, 3, &[]), refused(4, 0));
    assert_eq!(judge(&with(E, 0, 8), Kind::Rro, &s, 3, &[]), clean(1));
    assert_eq!(judge(&with(with(E, 0, 8), 4, 0xA8), Kind::Rro, &s, 3, &[]), refused(14, 0));
    assert_eq!(judge(&with(E, 6, 0x10), Kind::Ero, &s, 3, &[]), refused(8, 4));
    assert_eq!(judge(&with(with(E, 6, 0x20), 7, 1), Kind::Ero, &s, 3, &[]), refused(10, 4));
    assert_eq!(judge(&with(with(with(E, 0, 8), 6, 0x20), 7, 5), Kind::Rro, &s, 3, &[]), clean(1));
    assert_eq!(judge(&[7, 0x10, 0, 4], Kind::Ero, &s, 3, &[]), refused(5, 0));
    let mut mixed = route(3);
    mixed[52] = 1;
    assert_eq!(judge(&mixed, Kind::Ero, &s, 3, &[]), refused(6, 52));
    for n in 0..E.len() {
        assert_eq!(judge(&E[..n], Kind::Ero, &s, 3, &[]), refused(4, 0));
    }
    let (read, _) = segment(&with(E, 4, 0xA8), Kind::Ero, &s, 3, &[], 0).unwrap();
    assert!(read.loose && !read.verify && read.has_sid && read.behaviour == 1 && read.sid == E[12..28]);
    assert_eq!(segment(&E, Kind::Ero, &s, 3, &[], 1), refused(15, 0));
    assert_eq!(segment(&route(5), Kind::Ero, &s, 3, &[], 0), refused(12, 100));
}

#[test]
fn written_route_is_the_one_read() {
    let s = session();
    for object in [E.to_vec(), route(4), structured([40, 24, 16, 48])] {
        let mut buffer = vec![0xEE; object.len() + 3];
        let mut writer = Writer::begin(&mut buffer, Kind::Ero, 3).unwrap();
        assert_eq!(writer.finish(&mut buffer), refused(5, 0));
        for i in 0..judge(&object, Kind::Ero, &s, 3, &[]).unwrap().segments {
            writer = writer.add(&mut buffer, &segment(&object, Kind::Ero, &s, 3, &[], i as u64).unwrap().0).unwrap();
        }
        assert_eq!(writer.add(&mut buffer, &segment(&object, Kind::Ero, &s, 3, &[], 0).unwrap().0), refused(16, 0));
        writer.finish(&mut buffer).unwrap();
        assert_eq!(buffer[..object.len()], object);
        assert_eq!(buffer[object.len()..], [0xEE; 3]);
    }
    assert_eq!(Writer::begin(&mut [0; 3], Kind::Ero, 3), refused(16, 0));
}

#[test]
fn the_worked_history() {
    let s = session();
    let mut store = vec![0; STORE_OCTETS];
    let mut board = Board::default();
    let (a, b) = (11, 12);
    assert_eq!(board.report(&mut store, a, &E, &s, 3, &[]), clean(1));
    assert_eq!(board.report(&mut store, b, &route(2), &s, 3, &[]), clean(2));
    assert_eq!(board.remove(&store, a), Ok(()));
    let path_b = Change::Path { key: 12, version: 2, form: 3, place: 1, length: 48 };
    assert_eq!(board.next(&store, 1, 1), Ok(path_b));
    assert_eq!(board.next(&store, 1, 2), Ok(Change::Removed { key: 11, version: 3 }));
    assert_eq!(board.next(&store, 1, 3), Ok(Change::Level { version: 3 }));
    assert_eq!(board.body(&store, b), Ok((3, &route(2)[4..])));
    assert_eq!(board.body(&store, a), refused(22, 0));
    assert_eq!(board.compact(&store, 4), refused(24, 0));
    assert_eq!(board.compact(&store, 3), Ok(()));
    assert_eq!(board.next(&store, 2, 2), refused(23, 0));
    assert_eq!(board.next(&store, 3, 3), Ok(Change::Level { version: 3 }));
    assert_eq!(board.fresh_mark(), (3, 0));
    assert_eq!(board.next(&store, 3, 0), Ok(path_b));
    assert_eq!(board.next(&store, 3, 2), Ok(Change::Level { version: 3 }));
    assert_eq!(board.next(&store, 4, 2), refused(24, 0));
    assert_eq!(board.next(&store[1..], 3, 2), refused(17, 0));
}

#[test]
fn a_full_board() {
    let s = session();
    let mut store = vec![0; STORE_OCTETS];
    let mut board = Board::default();
    for key in 1..=128 {
        assert_eq!(board.report(&mut store, key, &E, &s, 3, &[]), clean(1));
    }
    assert_eq!(board.report(&mut store, 500, &E, &s, 3, &[]), refused(21, 0));
    assert_eq!(board.report(&mut store, 5, &E, &s, 3, &[]), clean(1));
    board.remove(&store, 77).unwrap();
    board.remove(&store, 33).unwrap();
    assert_eq!((board.version, board.floor), (131, 0));
    assert_eq!(board.report(&mut store, 500, &E, &s, 3, &[]), clean(1));
    assert_eq!((board.keys[76], board.version, board.floor), (500, 132, 130));
    assert_eq!(board.report(&mut store, 0, &E, &s, 3, &[]), refused(18, 0));
    assert_eq!(board.report(&mut store, 1_048_575, &[], &s, 3, &[]), refused(18, 0));
    assert_eq!(board.report(&mut store, 1_048_574, &with(E, 7, 3), &s, 3, &[]), refused(9, 4));
    let free = Session { limit: None, ..s };
    assert_eq!(board.report(&mut store, 9, &route(16), &free, 3, &[]), clean(16));
    assert_eq!(board.report(&mut store, 9, &route(17), &free, 3, &[]), refused(19, 0));
    board.version = u64::MAX - 1;
    assert_eq!(board.report(&mut store, 9, &E, &s, 3, &[]), refused(20, 0));
    assert_eq!(board.remove(&store, 9), refused(20, 0));
    board.version = u64::MAX;
    assert_eq!(board.remove(&store, 9), refused(17, 0));
}

/// A route of `n` segments, the first an adjacency of `local`, with a SID or without.
fn from_here(n: usize, nt: u8, sid: bool, local: [u8; 16]) -> Vec<u8> {
    let nai = if nt == 6 { 40 } else { 32 };
    let size = 8 + if sid { 16 } else { 0 } + nai;
    let mut octets = vec![7, 0x10, 0, 0, 40, size as u8, nt << 4, !sid as u8, 0, 0, 0, 1];
    octets.resize(octets.len() + if sid { 16 } else { 0 }, 9);
    octets.extend_from_slice(&local);
    octets.resize(4 + size, 7);
    for _ in 1..n {
        octets.extend_from_slice(&E[4..]);
    }
    let size = octets.len() as u16;
    octets[2..4].copy_from_slice(&size.to_be_bytes());
    octets
}

#[test]
fn one_segment_more() {
    let (here, there) = ([5; 16], [6; 16]);
    let both = [there, here].concat();
    // positions from the high end: A at 0 is 0x80 of the first flag octet, R at 1 is 0x40, position 13 is 4 of the second
    assert!(read_open(AT, &with(O, 26, 0x80)).is_ok_and(|o| o.a && !o.r));
    assert!(read_open(AT, &with(O, 26, 0x40)).is_ok_and(|o| !o.a && o.r));
    assert!(read_open(Setup { a: 13, r: 8 }, &with(O, 27, 4)).is_ok_and(|o| o.a && !o.r && !o.n));
    for at in [Setup { a: 14, r: 0 }, Setup { a: 0, r: 14 }, Setup { a: 3, r: 3 }, Setup { a: u64::MAX, r: 0 }] {
        assert_eq!(read_open(at, &[]), at_fault(28, 0));
    }
    let open = |flags| read_open(AT, &with(O, 26, flags));
    let agree = |pcc, pce| Session::agree(&open(pcc), &open(pce));
    assert_eq!(agree(0xC0, 0x80), Session { a: true, ..session() });
    // both ends must say so; then v permits v + 1
    for (pcc, pce, most) in [(0, 0, 4), (0x40, 0, 4), (0, 0x40, 4), (0x80, 0x40, 4), (0x40, 0x40, 5), (0xC0, 0xC0, 5)] {
        assert_eq!(judge(&route(most), Kind::Ero, &agree(pcc, pce), 3, &[]), clean(most));
        assert_eq!(judge(&route(most + 1), Kind::Ero, &agree(pcc, pce), 3, &[]), refused(12, 4 + 24 * most));
    }
    let a = Session { n: true, ..agree(0x80, 0x80) };
    for nt in [4, 6] {
        for sid in [true, false] {
            assert_eq!(judge(&from_here(5, nt, sid, here), Kind::Ero, &a, 3, &both), clean(5));
            assert_eq!(judge(&from_here(5, nt, sid, here), Kind::Ero, &a, 3, &there).map_err(|e| e.number), Err(12));
            assert_eq!(judge(&from_here(6, nt, sid, here), Kind::Ero, &a, 3, &both).map_err(|e| e.number), Err(12));
        }
    }
    // the remote address, and a node's, are none
    let mut remote = from_here(5, 4, true, there);
    remote[44..60].copy_from_slice(&here);
    assert_eq!(judge(&remote, Kind::Ero, &a, 3, &here).map_err(|e| e.number), Err(12));
    // Segments Left is untouched, and a zero of H.Encaps permits one still
    assert_eq!(judge(&from_here(5, 4, true, here), Kind::Ero, &Session { m: Some(3), ..a }, 3, &both).map_err(|e| e.number), Err(12));
    let zero = Session { limit: Some(1), v: Some(0), ..a };
    assert_eq!(judge(&from_here(1, 4, true, here), Kind::Ero, &zero, 3, &both), clean(1));
    assert_eq!(judge(&from_here(2, 4, true, here), Kind::Ero, &zero, 3, &both).map_err(|e| e.number), Err(12));
    // a list that is no multiple of 16 octets goes before everything else, in an RRO too
    assert_eq!(judge(&[], Kind::Rro, &a, 3, &[0; 15]), refused(28, 0));
    assert_eq!(segment(&[], Kind::Ero, &a, 3, &[0; 17], 0), refused(28, 0));
    assert_eq!(Board::default().report(&mut [], 0, &[], &a, 3, &[0]), refused(28, 0));
}
