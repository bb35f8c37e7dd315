//! `strundevi`: checks routes, shows their segments, explains the numbers. Every answer about a route is the proved library's; this program reads
//! files and writes words. Its status is 0 if all was accepted, 1 if something was refused, 2 if the command or an input could not be read.
#![forbid(unsafe_code)]

mod behaviour;
mod check;
mod input;
mod numbers;
mod text;

use check::Checked;
use std::ffi::{OsStr, OsString};
use std::io::{self, BufWriter, Write};
use std::process::ExitCode;
use strundevi::Form;

const HELP: &str = "\
strundevi check [--mpls] [--plain] FILE..   judges a PCC OPEN, a PCE OPEN and an ERO that stand one behind the other in each file
strundevi segments [--mpls] FILE..          the same, and shows the segments of an accepted route
strundevi explain NUMBER..                  what a number means, what to do, and its PCErr
strundevi --help                            this text

FILE     octets as they are, or text of hexadecimal digits with spaces and line ends; - is standard input. The first 65,536
         octets count, and what stands behind the ERO does not.
--mpls   the ERO is one of MPLS, setup type 1; without it, one of SRv6, setup type 3
--plain  prints the line of the checking program: number, place, count, stray segments
--       what follows is a FILE or a NUMBER, whatever it begins with

One line is written for each file, with its name; with --plain the line alone. Faults of the command and files that cannot be
read are told on standard error. OPENs are read with A and R at positions 0 and 1, and routes judged without addresses of a head end: a
box that has others may permit one segment more or fewer.

status   0 accepted, 1 refused, 2 bad usage or an input that cannot be read; of several files the largest
";

const ACCEPTED: u8 = 0;
const REFUSED: u8 = 1;
const UNREADABLE: u8 = 2;

#[derive(Clone, Copy, PartialEq)]
enum Shape {
    Verdict,
    Plain,
    Segments,
}

fn main() -> ExitCode {
    let arguments: Vec<OsString> = std::env::args_os().skip(1).collect();
    let mut out = BufWriter::new(io::stdout().lock());
    let status = obey(&arguments, &mut out).and_then(|status| out.flush().map(|()| status));
    ExitCode::from(status.unwrap_or_else(|error| {
        if error.kind() != io::ErrorKind::BrokenPipe {
            complain(&format!("the answer cannot be written: {error}"));
        }
        UNREADABLE
    }))
}

/// A word on standard error; where that is closed there is nobody to tell.
fn complain(fault: &str) {
    let _ = writeln!(io::stderr(), "strundevi: {fault}");
}

fn misused(fault: &str) -> io::Result<u8> {
    complain(&format!("{fault}; strundevi --help says how it is used"));
    Ok(UNREADABLE)
}

fn obey(arguments: &[OsString], out: &mut impl Write) -> io::Result<u8> {
    let Some((command, rest)) = arguments.split_first() else {
        return misused("no command");
    };
    let mut plain = false;
    let mut form = Form::Srv6;
    let mut names = Vec::new();
    let mut options = true;
    for word in rest {
        match word.to_str() {
            Some("--") if options => options = false,
            Some("--help" | "-h") if options => return help(out),
            Some("--plain") if options => plain = true,
            Some("--mpls") if options => form = Form::Mpls,
            Some(option) if options && option.len() > 1 && option.starts_with('-') => return misused(&format!("there is no option {option}")),
            _ => names.push(word.as_os_str()),
        }
    }
    match command.to_str() {
        Some("--help" | "-h" | "help") => help(out),
        Some("segments" | "explain") if plain => misused("--plain goes with check"),
        Some("explain") if form == Form::Mpls => misused("--mpls goes with check and segments"),
        Some("check") => files(&names, if plain { Shape::Plain } else { Shape::Verdict }, form, out),
        Some("segments") => files(&names, Shape::Segments, form, out),
        Some("explain") => explain(&names, out),
        _ => misused(&format!("there is no command {}", command.to_string_lossy())),
    }
}

fn help(out: &mut impl Write) -> io::Result<u8> {
    out.write_all(HELP.as_bytes())?;
    Ok(ACCEPTED)
}

fn files(names: &[&OsStr], shape: Shape, form: Form, out: &mut impl Write) -> io::Result<u8> {
    if names.is_empty() {
        return misused("no file is named, and - is standard input");
    }
    if names.iter().filter(|name| **name == "-").count() > 1 {
        return misused("standard input can be read once");
    }
    let mut status = ACCEPTED;
    for name in names {
        let shown = if *name == "-" { "standard input".into() } else { name.to_string_lossy() };
        match input::octets(name) {
            Ok(octets) => status = status.max(answer(&shown, &check::check(&octets, form), shape, out)?),
            Err(fault) => {
                out.flush()?;
                complain(&format!("{shown}: {fault}"));
                status = UNREADABLE;
            }
        }
    }
    Ok(status)
}

fn answer(name: &str, checked: &Checked, shape: Shape, out: &mut impl Write) -> io::Result<u8> {
    match shape {
        Shape::Plain => writeln!(out, "{}", text::plain(checked))?,
        Shape::Verdict | Shape::Segments => writeln!(out, "{name}: {}", text::verdict(checked))?,
    }
    match checked {
        Checked::Refused(..) => Ok(REFUSED),
        Checked::Accepted(route) => {
            if shape == Shape::Segments {
                for (i, (segment, strays)) in route.segments().enumerate() {
                    writeln!(out, "  {i}: {}", text::segment(&segment, &strays, route.form))?;
                }
            }
            Ok(ACCEPTED)
        }
    }
}

fn explain(names: &[&OsStr], out: &mut impl Write) -> io::Result<u8> {
    if names.is_empty() {
        return misused("no number is named");
    }
    let mut status = ACCEPTED;
    for name in names {
        match name.to_str().and_then(|name| name.parse().ok()).and_then(|number| Some((number, numbers::row(number)?))) {
            Some((number, row)) => out.write_all(text::explained(number, &row).as_bytes())?,
            None => {
                out.flush()?;
                complain(&format!("{} is no number that is answered; docs/NUMBERS.md has them all", name.to_string_lossy()));
                status = UNREADABLE;
            }
        }
    }
    Ok(status)
}
