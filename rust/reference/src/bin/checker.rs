//! The checking program: a PCC OPEN, a PCE OPEN and an ERO from the first 65,536 octets of standard input, each cut by its own length field
//! (too little left, or a length under 4: all the rest), PST 3, A and R at 0 and 1, no addresses. It prints the first refusal's or the ERO's number, place,
//! count and stray ones.

use reference::{judge, read_open, Counts, Kind, Refusal, Session, Setup};
use std::io::{self, Read};

const MOST: u64 = 65_536;

fn cut(octets: &[u8]) -> (&[u8], &[u8]) {
    let size = match octets {
        [_, _, high, low, ..] => u16::from_be_bytes([*high, *low]) as usize,
        _ => 0,
    };
    if size < 4 || size > octets.len() {
        return (octets, &[]);
    }
    octets.split_at(size)
}

fn check(octets: &[u8]) -> Result<Counts, Refusal> {
    let (pcc, rest) = cut(octets);
    let (pce, rest) = cut(rest);
    let (ero, _) = cut(rest);
    let at = Setup { a: 0, r: 1 };
    let pcc = read_open(at, pcc);
    let pce = read_open(at, pce);
    for answer in [pcc, pce] {
        answer.map_err(|fault| Refusal { number: fault.number, place: 0 })?;
    }
    judge(ero, Kind::Ero, &Session::agree(&pcc, &pce), 3, &[])
}

fn main() -> io::Result<()> {
    let mut octets = Vec::new();
    io::stdin().lock().take(MOST).read_to_end(&mut octets)?;
    match check(&octets) {
        Ok(counts) => println!("0 0 {} {}", counts.segments, counts.stray),
        Err(refusal) => println!("{} {} 0 0", refusal.number, refusal.place),
    }
    Ok(())
}
