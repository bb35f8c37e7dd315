//! What is checked: octets, as they are or as hexadecimal digits.
//!
//! An input of nothing but printable characters and white space is text, and has to be pairs of hexadecimal digits, with spaces and line
//! ends wherever one likes. Every other input is taken as it is. No good input is both: an OPEN object begins with the octet 1, which no text has.

use std::ffi::OsStr;
use std::fs::File;
use std::io::{self, ErrorKind, Read};

/// The octets that the checking program looks at.
const MOST: usize = 65_536;

/// The most octets of an input that are read: room for twice as many digits, each with something behind it, and more.
const MOST_READ: u64 = 1_048_576;

/// The octets of a file, of standard input for `-`; or why there are none.
pub fn octets(name: &OsStr) -> Result<Vec<u8>, String> {
    let read = if name == "-" { all(io::stdin().lock()) } else { File::open(name).and_then(all) };
    let mut input = read.map_err(|error| in_words(&error))?;
    if is_text(&input) {
        input = digits(&input)?;
    }
    input.truncate(MOST);
    Ok(input)
}

fn all(from: impl Read) -> io::Result<Vec<u8>> {
    let mut input = Vec::new();
    from.take(MOST_READ).read_to_end(&mut input)?;
    Ok(input)
}

fn in_words(error: &io::Error) -> String {
    match error.kind() {
        ErrorKind::NotFound => "there is no such file".to_string(),
        ErrorKind::PermissionDenied => "it may not be read".to_string(),
        _ => format!("it cannot be read: {error}"),
    }
}

fn is_text(input: &[u8]) -> bool {
    !input.is_empty() && input.iter().all(|c| c.is_ascii_graphic() || c.is_ascii_whitespace())
}

fn digits(text: &[u8]) -> Result<Vec<u8>, String> {
    if text.len() as u64 == MOST_READ {
        return Err(format!("it is text of {MOST_READ} octets or more"));
    }
    let mut octets = Vec::new();
    let mut high = None;
    for (i, line) in text.split(|&c| c == b'\n').enumerate() {
        for &c in line.iter().filter(|c| !c.is_ascii_whitespace()) {
            let Some(digit) = (c as char).to_digit(16) else {
                return Err(format!("it is text, and '{}' in line {} is no hexadecimal digit", c as char, i + 1));
            };
            match high.take() {
                None => high = Some(digit),
                Some(first) => octets.push((first * 16 + digit) as u8),
            }
        }
    }
    match high {
        None => Ok(octets),
        Some(_) => Err("it has an odd number of hexadecimal digits".to_string()),
    }
}
