//! A follower in Rust: it takes what a board hands out, is cut off, comes back too old, starts afresh, and ends up level.
//!
//!     cargo run --release --offline --manifest-path rust/Cargo.toml --package strundevi --example follow

use std::collections::BTreeMap;
use strundevi::{read_open, Board, Change, Form, Mark, Number, Refusal, Session, Setup, PST_SRV6, STORE_OCTETS};

const OPEN: [u8; 32] = [
    0x01, 0x10, 0x00, 0x20, 0x20, 0x1E, 0x78, 0x07, 0x00, 0x22, 0x00, 0x12, 0x00, 0x00, 0x00, 0x01, 0x03, 0x00, 0x00, 0x00, 0x00, 0x1B, 0x00, 0x06, 0x00, 0x00,
    0x00, 0x00, 0x2C, 0x04, 0x00, 0x00,
];

/// The box that keeps the board.
struct Keeper {
    board: Board<Vec<u8>>,
    session: Session,
}

impl Keeper {
    /// Reports a path of one segment, whose SID ends in the octet given.
    fn report(&mut self, key: u32, last: u8) -> Result<(), Refusal> {
        let mut ero = [7, 0x10, 0, 28, 40, 24, 0, 2, 0, 0, 0, 1, 0x20, 0x01, 0x0D, 0xB8, 0, 0, 0, 1, 0, 0, 0, 0, 0, 0, 0, 0];
        ero[27] = last;
        self.board.report(key, &ero, &self.session, PST_SRV6, &[])?;
        println!("board: report {key} answers 0, version {}", self.board.version());
        Ok(())
    }

    fn withdraw(&mut self, key: u32) -> Result<(), Refusal> {
        self.board.remove(key)?;
        println!("board: remove {key} answers 0, version {}", self.board.version());
        Ok(())
    }

    fn compact(&mut self, c: u64) -> Result<(), Refusal> {
        self.board.compact(c)?;
        println!("board: compact {c} answers 0, floor {}", self.board.floor());
        Ok(())
    }

    /// The paths on the board: their forms and their octets.
    fn paths(&self) -> BTreeMap<u32, (Form, Vec<u8>)> {
        let keys = self.board.record().keys.iter();
        keys.filter_map(|&key| self.board.body(key).ok().map(|path| (key, (path.form, path.body.to_vec())))).collect()
    }
}

/// The box that follows.
struct Follower {
    mark: Mark,
    held: BTreeMap<u32, (Form, Vec<u8>)>,
}

impl Follower {
    /// Whoever keeps mark and paths where they outlive a loss of power forgets the old mark first, and keeps the fresh one last.
    fn afresh(keeper: &Keeper) -> Follower {
        let mark = keeper.board.fresh_mark();
        println!("follower: empty, mark ({}, {})", mark.s, mark.w);
        Follower { mark, held: BTreeMap::new() }
    }

    /// Asks until it is level. A mark that is too old, or ahead of the board, is no mark to go on from; whoever holds one starts afresh.
    fn follow(&mut self, keeper: &Keeper) -> Result<(), Refusal> {
        loop {
            let change = match keeper.board.next(self.mark) {
                Ok(change) => change,
                Err(refusal) if matches!(refusal.number, Number::MarkTooOld | Number::MarkAhead) => {
                    println!("follower: refused by {}", refusal.number as u8);
                    *self = Follower::afresh(keeper);
                    continue;
                }
                Err(refusal) => return Err(refusal),
            };
            self.make(&change);
            self.mark = self.mark.after(&change);
            if let Change::Level { version } = change {
                println!("follower: level at {version}");
                return Ok(());
            }
        }
    }

    /// Makes a change; a path's octets are copied.
    fn make(&mut self, change: &Change) {
        match *change {
            Change::Path { key, version, form, body } => {
                self.held.insert(key, (form, body.to_vec()));
                println!("follower: path {key} at {version}, {} octets, the last {}", body.len(), body.last().unwrap_or(&0));
            }
            Change::Removed { key, version } => {
                self.held.remove(&key);
                println!("follower: {key} removed at {version}");
            }
            Change::Level { .. } => {}
        }
    }
}

fn main() -> Result<(), Refusal> {
    let opened = read_open(Setup::FIRST_TWO, &OPEN);
    let mut keeper = Keeper { board: Board::new(vec![0; STORE_OCTETS]), session: Session::agree(&opened, &opened) };

    let mut follower = Follower::afresh(&keeper);
    keeper.report(7, 1)?;
    keeper.report(9, 2)?;
    follower.follow(&keeper)?;

    println!("the line is cut");
    keeper.withdraw(7)?;
    keeper.report(11, 3)?;
    keeper.withdraw(9)?;
    keeper.report(9, 4)?;
    println!("the line is back");
    follower.follow(&keeper)?;

    println!("the line is cut");
    keeper.withdraw(11)?;
    keeper.report(13, 5)?;
    keeper.compact(keeper.board.version())?;
    println!("the line is back");
    follower.follow(&keeper)?;
    println!("the same as the board: {}", if follower.held == keeper.paths() { "yes" } else { "no" });
    Ok(())
}
