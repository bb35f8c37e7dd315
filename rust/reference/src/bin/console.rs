//! The console over the reference: one command to a line of standard input, one line of answer for each.

use reference::{
    judge, read_open, segment, Board, Change, Counts, Fault, Form, Kind, Open, OpenAnswer, Refusal, Segment, Session, Setup, Strays, Writer, PLACE_OCTETS,
    STORE_OCTETS,
};
use std::fmt::Write as _;
use std::io::{self, Read, Write};

const LINE_MOST: usize = 131_200;
const SIZE_MOST: u64 = 65_536;
const LENT: u8 = 0xEE;

struct Console {
    pcc: OpenAnswer,
    pce: OpenAnswer,
    board: Board,
    store: Vec<u8>,
    writer: Writer,
    buffer: Vec<u8>,
    positions: Setup,
    addresses: Vec<u8>,
}

fn number(word: &str) -> Option<u64> {
    if word.is_empty() || !word.bytes().all(|b| b.is_ascii_digit()) {
        return None;
    }
    let digits = word.trim_start_matches('0');
    if digits.is_empty() {
        return Some(0);
    }
    digits.parse().ok()
}

fn number_to(word: &str, most: u64) -> Option<u64> {
    number(word).filter(|&n| n <= most)
}

fn octets(word: &str) -> Option<Vec<u8>> {
    if word == "-" {
        return Some(Vec::new());
    }
    if word.is_empty() || word.len() % 2 != 0 {
        return None;
    }
    let digit = |b: u8| (b as char).to_digit(16);
    word.as_bytes().chunks(2).map(|pair| Some((digit(pair[0])? * 16 + digit(pair[1])?) as u8)).collect()
}

fn structure(word: &str) -> Option<Option<[u8; 4]>> {
    if word == "-" {
        return Some(None);
    }
    let numbers: Vec<u8> = word.split(',').map(|n| number_to(n, 255).map(|n| n as u8)).collect::<Option<_>>()?;
    Some(Some(numbers.try_into().ok()?))
}

fn show(octets: &[u8]) -> String {
    if octets.is_empty() {
        return "-".to_string();
    }
    let mut text = String::with_capacity(2 * octets.len());
    for octet in octets {
        write!(text, "{octet:02X}").unwrap();
    }
    text
}

/// SID and NAI have the octets that they have in the form.
fn show_segment(s: &Segment, form: Form) -> String {
    let sid = if s.has_sid { show(&s.sid[..form.sid_size()]) } else { "-".to_string() };
    let nai = &s.nai[..form.nai_size(s.nt).unwrap_or(0)];
    let structure = if s.structured {
        let [a, b, c, d] = s.structure;
        format!("{a},{b},{c},{d}")
    } else {
        "-".to_string()
    };
    let (m, c) = (s.labelled as u8, s.complete as u8);
    format!(" {} {} {} {} {sid} {} {structure} {m} {c}", s.loose as u8, s.verify as u8, s.nt, s.behaviour, show(nai))
}

fn show_strays(x: &Strays) -> String {
    format!(" {} {} {}", x.flags, x.structure, x.reserved as u8)
}

fn show_counts(counts: &Counts) -> String {
    format!(" {} {}", counts.segments, counts.stray)
}

fn show_open(open: &Open) -> String {
    let or_none = |n: Option<usize>| n.map_or("-".to_string(), |n| n.to_string());
    let (v, m) = (or_none(open.v.map(usize::from)), or_none(open.m.map(usize::from)));
    let srv6 = format!(" {} {} {} {} {} {v} {m}", open.srv6 as u8, open.n as u8, or_none(open.limit), open.a as u8, open.r as u8);
    let mpls = open.mpls.unwrap_or_default();
    srv6 + &format!(" {} {} {}", open.mpls.is_some() as u8, mpls.n as u8, or_none(mpls.limit))
}

fn kind(word: &str) -> Option<Kind> {
    match word {
        "ero" => Some(Kind::Ero),
        "rro" => Some(Kind::Rro),
        _ => None,
    }
}

impl Console {
    fn new() -> Console {
        let refused = Err(Fault { number: 1, form: 0 });
        Console {
            pcc: refused,
            pce: refused,
            board: Board::default(),
            store: vec![0; STORE_OCTETS],
            writer: Writer { kind: Kind::Ero, form: Form::Srv6.pst(), at: 0 },
            buffer: Vec::new(),
            positions: Setup { a: 0, r: 1 },
            addresses: Vec::new(),
        }
    }

    fn session(&self) -> Session {
        Session::agree(&self.pcc, &self.pce)
    }

    /// The answer to a line in form: what follows `0 0`, or the refusal's line. None for a line out of form.
    fn answer(&mut self, line: &str) -> Option<Result<String, String>> {
        let words: Vec<&str> = line.split(' ').collect();
        let open = |answer: OpenAnswer| answer.map(|o| show_open(&o)).map_err(|fault| format!("{} 0 {}", fault.number, fault.form));
        let answer = match words[..] {
            ["positions", a, r] => {
                self.positions = Setup { a: number(a)?, r: number(r)? };
                Ok(String::new())
            }
            ["addresses", given] => {
                self.addresses = octets(given)?;
                Ok(String::new())
            }
            ["pcc", given] => {
                self.pcc = read_open(self.positions, &octets(given)?);
                return Some(open(self.pcc));
            }
            ["pce", given] => {
                self.pce = read_open(self.positions, &octets(given)?);
                return Some(open(self.pce));
            }
            [name @ ("ero" | "rro"), pst, given] => {
                judge(&octets(given)?, kind(name)?, &self.session(), number(pst)?, &self.addresses).map(|counts| show_counts(&counts))
            }
            [name @ ("ero-segment" | "rro-segment"), pst, i, given] => {
                let pst = number(pst)?;
                segment(&octets(given)?, kind(&name[..3])?, &self.session(), pst, &self.addresses, number(i)?)
                    .map(|(s, x)| show_segment(&s, Form::of(pst)) + &show_strays(&x))
            }
            ["begin", name, pst, size] => {
                let (kind, pst) = (kind(name)?, number(pst)?);
                let mut buffer = vec![LENT; number_to(size, SIZE_MOST)? as usize];
                Writer::begin(&mut buffer, kind, pst).map(|writer| {
                    self.writer = writer;
                    self.buffer = buffer;
                    format!(" {}", writer.at)
                })
            }
            ["add", l, v, nt, behaviour, sid, nai, bits, m, c] => {
                let sid = octets(sid)?;
                let nai = octets(nai)?;
                let bits = structure(bits)?;
                if nai.len() > 40 || sid.len() > 16 {
                    return None;
                }
                let mut given = Segment {
                    loose: number_to(l, 1)? == 1,
                    verify: number_to(v, 1)? == 1,
                    nt: number_to(nt, 255)? as u8,
                    behaviour: number_to(behaviour, 65_535)? as u16,
                    has_sid: !sid.is_empty(),
                    structured: bits.is_some(),
                    structure: bits.unwrap_or_default(),
                    labelled: number_to(m, 1)? == 1,
                    complete: number_to(c, 1)? == 1,
                    ..Segment::default()
                };
                given.sid[..sid.len()].copy_from_slice(&sid);
                given.nai[..nai.len()].copy_from_slice(&nai);
                self.writer.add(&mut self.buffer, &given).map(|writer| {
                    self.writer = writer;
                    format!(" {}", writer.at)
                })
            }
            ["finish"] => self.writer.finish(&mut self.buffer).map(|writer| {
                self.writer = writer;
                format!(" {}", show(&self.buffer[..writer.at]))
            }),
            ["lent"] => Ok(format!(" {}", show(&self.buffer))),
            ["report", key, pst, given] => {
                let (key, pst, given) = (number(key)?, number(pst)?, octets(given)?);
                let session = self.session();
                self.board.report(&mut self.store, key, &given, &session, pst, &self.addresses).map(|counts| show_counts(&counts))
            }
            ["remove", key] => self.board.remove(&self.store, number(key)?).map(|()| String::new()),
            ["compact", c] => self.board.compact(&self.store, number(c)?).map(|()| String::new()),
            ["body", key] => self.board.body(&self.store, number(key)?).map(|(form, octets)| format!(" {form} {}", show(octets))),
            ["next", s, w] => self.board.next(&self.store, number(s)?, number(w)?).map(|change| match change {
                Change::Path { key, version, form, place, length } => {
                    let start = place * PLACE_OCTETS;
                    format!(" path {key} {version} {form} {}", show(&self.store[start..start + length]))
                }
                Change::Removed { key, version } => format!(" removed {key} {version}"),
                Change::Level { version } => format!(" level {version}"),
            }),
            ["moved", a, b, v] => self.board.moved(&self.store, number(a)?, number(b)?, number(v)?).map(|moved| format!(" {}", moved as u8)),
            ["mark"] => {
                let (s, w) = self.board.fresh_mark();
                Ok(format!(" {s} {w}"))
            }
            ["board"] => Ok(format!(" {} {}", self.board.version, self.board.floor)),
            ["chain"] => {
                let order = self.board.order();
                let places: Vec<String> = order.iter().take_while(|&&n| n != 0).map(|n| (n - 1).to_string()).collect();
                Ok(format!(" {}", if places.is_empty() { "-".to_string() } else { places.join(",") }))
            }
            _ => return None,
        };
        Some(answer.map_err(|refusal: Refusal| format!("{} {}", refusal.number, refusal.place)))
    }
}

fn main() -> io::Result<()> {
    let mut input = Vec::new();
    io::stdin().lock().read_to_end(&mut input)?;
    let mut out = io::BufWriter::new(io::stdout().lock());
    let mut console = Console::new();
    for (i, line) in input.split(|&b| b == b'\n').enumerate() {
        if line.is_empty() || line[0] == b'#' {
            continue;
        }
        let in_form = if line.len() > LINE_MOST { None } else { std::str::from_utf8(line).ok() };
        match in_form.and_then(|line| console.answer(line)) {
            Some(Ok(content)) => writeln!(out, "0 0{content}")?,
            Some(Err(refusal)) => writeln!(out, "{refusal}")?,
            None => writeln!(out, "bad line {}", i + 1)?,
        }
    }
    out.flush()
}
