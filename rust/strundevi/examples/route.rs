//! A box in Rust: reads two OPEN objects, writes a route, reports it, and lets another box follow.
//!
//!     cargo run --release --offline --manifest-path rust/Cargo.toml --package strundevi --example route

use strundevi::{judge, read_open, segment, segments, Board, Change, Form, Kind, Refusal, Segment, Session, Setup, Writer, PST_SRV6, STORE_OCTETS};

const OPEN: [u8; 32] = [
    0x01, 0x10, 0x00, 0x20, 0x20, 0x1E, 0x78, 0x07, 0x00, 0x22, 0x00, 0x12, 0x00, 0x00, 0x00, 0x01, 0x03, 0x00, 0x00, 0x00, 0x00, 0x1B, 0x00, 0x06, 0x00, 0x00,
    0x00, 0x00, 0x2C, 0x04, 0x00, 0x00,
];

fn main() -> Result<(), Refusal> {
    let opened = read_open(Setup::FIRST_TWO, &OPEN);
    let open = opened?;
    let session = Session::agree(&opened, &opened);
    println!("open: SRv6 {}, N {}, limit {:?}", open.srv6, open.n, open.limit);

    let mut buffer = [0; 256];
    let mut writer = Writer::begin(&mut buffer, Kind::Ero, Form::Srv6)?;
    for i in 1..=3 {
        let mut sid = [0x20, 0x01, 0x0D, 0xB8, 0, 0, 0, 0, 0, 0, 0, 0, 0, 0, 0, 0];
        sid[15] = i;
        writer.add(&Segment::with_sid(sid, 1))?;
    }
    let route = writer.finish()?;
    println!("written: {} octets", route.len());

    let judged = judge(route, Kind::Ero, &session, PST_SRV6, &[])?;
    println!("judged: {} segments, {} of them stray", judged.segments, judged.stray);
    let (last, _) = segment(route, Kind::Ero, &session, PST_SRV6, &[], 2)?;
    println!("segment 2: last octet of the SID {:?}", last.sid().map(|sid| sid[15]));
    for (i, step) in segments(route, Kind::Ero, &session, PST_SRV6, &[])?.enumerate() {
        println!("step {i}: last octet of the SID {:?}", step.sid().map(|sid| sid[15]));
    }

    let mut board = Board::new(vec![0; STORE_OCTETS]);
    let mut mark = board.fresh_mark();
    board.report(7, route, &session, PST_SRV6, &[])?;
    board.report(8, route, &session, PST_SRV6, &[])?;
    board.remove(7)?;
    if let Err(refusal) = board.report(0, route, &session, PST_SRV6, &[]) {
        println!("refused: {refusal}");
    }
    println!("body of 8: {} octets", board.body(8)?.body.len());

    loop {
        let change = board.next(mark)?;
        match change {
            Change::Path { key, version, body, .. } => println!("path {key} at {version}: {} octets, the same {}", body.len(), *body == route[4..]),
            Change::Removed { key, version } => println!("removed {key} at {version}"),
            Change::Level { version } => println!("level at {version}"),
        }
        mark = mark.after(&change);
        if matches!(change, Change::Level { .. }) {
            return Ok(());
        }
    }
}
