//! The proved library against the reference: the same inputs, every answer and every lent octet compared, by each way in which a program
//! calls it: the archive's functions, the wrapper's safe calls, the C header's calls.
//!
//!     differ [SEED [OBJECTS [CALLS]]]
//!
//! Without words: seed 1, 1,000,000 routes, 150,000 board calls. Ends with status 1 at the first difference, shown small, and if an answer
//! that a call can give never came up.

mod boards;
mod doors;
mod header;
mod objects;
mod octets;
mod plain;
mod random;
mod reading;
mod tally;
mod writing;

use random::Random;
use std::process::ExitCode;
use std::time::Instant;
use tally::{Call, Tally};

fn run(tally: &mut Tally, seed: u64, objects: usize, calls: usize) -> Result<(), String> {
    header::check()?;
    let mut r = Random::new(seed);
    reading::exhaust(tally, &mut r)?;
    reading::opens(tally, &mut r, objects / 4)?;
    reading::routes(tally, &mut r, objects)?;
    writing::longest()?;
    writing::steps(tally, &mut r, objects / 4)?;
    boards::calls(tally, &mut r, calls)
}

fn main() -> ExitCode {
    let word = |i, or| std::env::args().nth(i).and_then(|word| word.parse().ok()).unwrap_or(or);
    let (seed, objects, calls) = (word(1, 1u64), word(2, 1_000_000), word(3, 150_000));
    let start = Instant::now();
    let mut tally = Tally::default();
    if let Err(difference) = run(&mut tally, seed, objects as usize, calls as usize) {
        println!("seed {seed}: a difference\n{difference}");
        return ExitCode::FAILURE;
    }
    print!("{tally}");
    let missing = tally.missing();
    if !missing.is_empty() {
        println!("seed {seed}: never answered: {}", missing.join(", "));
        return ExitCode::FAILURE;
    }
    let judged = tally.calls(&[Call::Open, Call::Ero, Call::Rro, Call::MplsEro, Call::MplsRro]);
    let board = tally.calls(&[Call::Report, Call::MplsReport, Call::Remove, Call::Compact, Call::Body, Call::Next, Call::Moved]);
    println!("seed {seed}: {judged} objects judged, {board} board calls, no difference ({:.0} s)", start.elapsed().as_secs_f64());
    ExitCode::SUCCESS
}
