//! A box on the older half of the line, in Rust: reads OPENs of both forms, writes an MPLS route of labels, one of an index and one of a name without a SID,
//! reads them, and keeps the first on a board beside an SRv6 path.
//!
//!     cargo run --release --offline --manifest-path rust/Cargo.toml --package strundevi --example mpls

use strundevi::{
    judge, read_open, segments, Board, Change, Form, Kind, Label, MplsSid, Nai, Refusal, Segment, Session, Setup, Writer, PST_MPLS, PST_SRV6, STORE_OCTETS,
};

/// Setup types 1 and 3; sub-TLV 26 with N and a depth of 4, sub-TLV 27 with X.
const OPEN: [u8; 36] = [
    0x01, 0x10, 0x00, 0x24, 0x20, 0x1E, 0x78, 0x07, 0x00, 0x22, 0x00, 0x18, 0x00, 0x00, 0x00, 0x02, 0x01, 0x03, 0x00, 0x00, 0x00, 0x1A, 0x00, 0x04, 0x00, 0x00,
    0x02, 0x04, 0x00, 0x1B, 0x00, 0x04, 0x00, 0x00, 0x00, 0x01,
];
const SRV6_ROUTE: [u8; 28] = [7, 0x10, 0, 28, 40, 24, 0, 2, 0, 0, 0, 1, 0x20, 0x01, 0x0D, 0xB8, 0, 0, 0, 1, 0, 0, 0, 0, 0, 0, 0, 1];

/// A label. TC, S and TTL are for the head end to choose.
fn label(label: u32) -> MplsSid {
    MplsSid::Label(Label::only(label).expect("20 bits"))
}

/// A label whose TC, S and TTL the head end is to use.
fn entry(label: u32, s: bool) -> MplsSid {
    MplsSid::Entry(Label::new(label, 5, s, 64).expect("20 and 3 bits"))
}

fn show(route: &[u8], session: &Session) -> Result<(), Refusal> {
    println!("written: {} octets", route.len());
    for (i, segment) in segments(route, Kind::Ero, session, PST_MPLS, &[])?.enumerate() {
        match segment.mpls_sid() {
            Some(MplsSid::Index(index)) => println!("segment {i}: index {index}, {:?}", segment.nai()),
            Some(MplsSid::Label(entry)) => println!("segment {i}: label {}, {:?}", entry.label(), segment.nai()),
            Some(MplsSid::Entry(entry)) => println!("segment {i}: label {}, TC {}, S {}, TTL {}", entry.label(), entry.tc(), entry.s(), entry.ttl()),
            None => println!("segment {i}: {:?}", segment.nai()),
        }
    }
    Ok(())
}

fn main() -> Result<(), Refusal> {
    let opened = read_open(Setup::FIRST_TWO, &OPEN);
    let session = Session::agree(&opened, &opened);
    println!("open: MPLS {:?}; SRv6 {}", opened?.mpls, opened?.srv6);

    // a label that is a node's, and two with TC, S and TTL: only the last entry is the bottom of the stack
    let mut buffer = [0; 256];
    let mut writer = Writer::begin(&mut buffer, Kind::Ero, Form::Mpls)?;
    writer.add(&Segment::with_mpls_sid(label(16001)).and_nai(Nai::Node4([198, 51, 100, 1].into())))?;
    if let Err(refusal) = writer.add(&Segment::with_mpls_sid(label(3))) {
        println!("label 3: {refusal}");
    }
    writer.add(&Segment::with_mpls_sid(entry(24005, false)))?;
    writer.add(&Segment::with_mpls_sid(entry(24009, true)))?;
    let route = writer.finish()?;
    show(route, &session)?;

    // an index, by an IPv4 adjacency
    let mut other = [0; 256];
    let mut writer = Writer::begin(&mut other, Kind::Ero, Form::Mpls)?;
    let adjacency = Nai::Adjacency4 { local: [192, 0, 2, 1].into(), remote: [192, 0, 2, 2].into() };
    writer.add(&Segment::with_mpls_sid(MplsSid::Index(11)).and_nai(adjacency))?;
    show(writer.finish()?, &session)?;

    // a node to look the SID up by
    let mut writer = Writer::begin(&mut other, Kind::Ero, Form::Mpls)?;
    writer.add(&Segment::with_nai(Nai::Node4([198, 51, 100, 7].into()), 0))?;
    show(writer.finish()?, &session)?;

    if let Err(refusal) = judge(route, Kind::Ero, &session, PST_SRV6, &[]) {
        println!("as an SRv6 route: {refusal}");
    }

    let mut board = Board::new(vec![0; STORE_OCTETS]);
    let mut mark = board.fresh_mark();
    board.report(7, route, &session, PST_MPLS, &[])?;
    board.report(8, &SRV6_ROUTE, &session, PST_SRV6, &[])?;
    loop {
        let change = board.next(mark)?;
        match change {
            Change::Path { key, version, form, body } => println!("path {key} at {version}: {form:?}, {} octets", body.len()),
            Change::Removed { key, version } => println!("removed {key} at {version}"),
            Change::Level { version } => println!("level at {version}"),
        }
        mark = mark.after(&change);
        if matches!(change, Change::Level { .. }) {
            return Ok(());
        }
    }
}
