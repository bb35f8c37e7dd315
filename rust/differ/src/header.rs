//! The C header's calls (src/header.c), and what the header says of records and numbers against the wrapper, the reference and the paper.

use std::ffi::{c_char, CStr};
use std::mem::{offset_of, size_of};
use strundevi::raw::{Mark, Next, Opened, Part, Picked, Record, Segment, Session, Setup, Stepped, Verdict, Writer, Written};
use strundevi::{Form, Kind, Number, PcErr};

/// A label as the header has it.
#[repr(C)]
#[derive(Clone, Copy, Debug, PartialEq)]
struct Label {
    label: u32,
    tc: u8,
    bottom: u8,
    ttl: u8,
}

#[repr(C)]
struct Pcerr {
    error_type: u8,
    error_value: u8,
}

extern "C" {
    fn header_read_open(setup: Setup, octets: *const u8, length: usize) -> Opened;
    fn header_agree(pcc: Opened, pce: Opened) -> Session;
    fn header_judge(octets: *const u8, length: usize, ero: u8, session: Session, pst: u64, addresses: *const u8, given: usize) -> Verdict;
    fn header_segment_at(
        octets: *const u8,
        length: usize,
        ero: u8,
        session: Session,
        pst: u64,
        addresses: *const u8,
        given: usize,
        i: u64,
    ) -> Picked;
    fn header_step(octets: *const u8, length: usize, ero: u8, pst: u64, at: usize) -> Stepped;
    fn header_begin(buffer: *mut u8, size: usize, writer: Writer, ero: u8, pst: u64) -> Written;
    fn header_add(buffer: *mut u8, size: usize, writer: Writer, segment: *const Segment) -> Written;
    fn header_finish(buffer: *mut u8, size: usize, writer: Writer) -> Written;
    fn header_empty(board: *mut Record);
    fn header_report(
        board: *mut Record,
        store: *mut u8,
        size: usize,
        key: u64,
        ero: *const u8,
        length: usize,
        session: Session,
        pst: u64,
        addresses: *const u8,
        given: usize,
    ) -> Verdict;
    fn header_remove(board: *mut Record, store: *const u8, size: usize, key: u64) -> Verdict;
    fn header_compact(board: *mut Record, store: *const u8, size: usize, c: u64) -> Verdict;
    fn header_body(board: *const Record, store: *const u8, size: usize, key: u64) -> Part;
    fn header_moved(board: *const Record, store: *const u8, size: usize, from: u64, to: u64, v: u64) -> Verdict;
    fn header_next(board: *const Record, store: *const u8, size: usize, mark: Mark) -> Next;
    fn header_fresh_mark(board: *const Record) -> Mark;
    fn header_mark_after(mark: Mark, change: Next) -> Mark;
    fn header_mark_level(version: u64) -> Mark;
    fn header_text(number: usize) -> *const c_char;
    fn header_pcerr(number: usize, ero: u8, form: u64) -> Pcerr;
    fn header_label_of(segment: *const Segment) -> Label;
    fn header_set_label(segment: *mut Segment, entry: Label, complete: u8) -> i32;
    fn header_index_of(segment: *const Segment) -> u32;
    fn header_set_index(segment: *mut Segment, index: u32);
    fn header_nai_octets(pst: u64, nt: u8) -> usize;
    fn header_layout(length: *mut usize) -> *const usize;
    fn header_numbers(length: *mut usize) -> *const u64;
}

pub fn read_open(setup: Setup, s: &[u8]) -> Opened {
    unsafe { header_read_open(setup, s.as_ptr(), s.len()) }
}

pub fn agree(pcc: Opened, pce: Opened) -> Session {
    unsafe { header_agree(pcc, pce) }
}

pub fn judge(s: &[u8], ero: u8, session: Session, pst: u64, addresses: &[u8]) -> Verdict {
    unsafe { header_judge(s.as_ptr(), s.len(), ero, session, pst, addresses.as_ptr(), addresses.len()) }
}

pub fn segment(s: &[u8], ero: u8, session: Session, pst: u64, addresses: &[u8], i: u64) -> Picked {
    unsafe { header_segment_at(s.as_ptr(), s.len(), ero, session, pst, addresses.as_ptr(), addresses.len(), i) }
}

pub fn step(s: &[u8], ero: u8, pst: u64, at: usize) -> Stepped {
    unsafe { header_step(s.as_ptr(), s.len(), ero, pst, at) }
}

pub fn begin(buffer: &mut [u8], writer: Writer, ero: u8, pst: u64) -> Written {
    unsafe { header_begin(buffer.as_mut_ptr(), buffer.len(), writer, ero, pst) }
}

pub fn add(buffer: &mut [u8], writer: Writer, segment: &Segment) -> Written {
    unsafe { header_add(buffer.as_mut_ptr(), buffer.len(), writer, segment) }
}

pub fn finish(buffer: &mut [u8], writer: Writer) -> Written {
    unsafe { header_finish(buffer.as_mut_ptr(), buffer.len(), writer) }
}

pub fn empty(b: &mut Record) {
    unsafe { header_empty(b) }
}

pub fn report(b: &mut Record, store: &mut [u8], key: u64, ero: &[u8], session: Session, pst: u64, addresses: &[u8]) -> Verdict {
    unsafe { header_report(b, store.as_mut_ptr(), store.len(), key, ero.as_ptr(), ero.len(), session, pst, addresses.as_ptr(), addresses.len()) }
}

pub fn remove(b: &mut Record, store: &[u8], key: u64) -> Verdict {
    unsafe { header_remove(b, store.as_ptr(), store.len(), key) }
}

pub fn compact(b: &mut Record, store: &[u8], c: u64) -> Verdict {
    unsafe { header_compact(b, store.as_ptr(), store.len(), c) }
}

pub fn body(b: &Record, store: &[u8], key: u64) -> Part {
    unsafe { header_body(b, store.as_ptr(), store.len(), key) }
}

pub fn next(b: &Record, store: &[u8], mark: Mark) -> Next {
    unsafe { header_next(b, store.as_ptr(), store.len(), mark) }
}

pub fn moved(b: &Record, store: &[u8], from: u64, to: u64, v: u64) -> Verdict {
    unsafe { header_moved(b, store.as_ptr(), store.len(), from, to, v) }
}

pub fn fresh_mark(b: &Record) -> Mark {
    unsafe { header_fresh_mark(b) }
}

pub fn mark_after(mark: Mark, change: Next) -> Mark {
    unsafe { header_mark_after(mark, change) }
}

fn text(number: usize) -> &'static str {
    unsafe { CStr::from_ptr(header_text(number)) }.to_str().unwrap_or("")
}

/// A row that the C side hands out.
fn row<T: Copy>(hand_out: unsafe extern "C" fn(*mut usize) -> *const T) -> Vec<T> {
    let mut length = 0;
    unsafe {
        let first = hand_out(&mut length);
        std::slice::from_raw_parts(first, length).to_vec()
    }
}

/// Sizes of the wrapper's records, each with the places of its fields.
fn layout() -> Vec<usize> {
    macro_rules! rows {
        ($($record:ident: $($field:ident)*;)*) => { vec![$(size_of::<$record>(), $(offset_of!($record, $field),)*)*] };
    }
    rows! {
        Verdict: number place count stray;
        Setup: a r;
        Opened: number srv6 n limited limit a r hasv v hasm m mpls mplsn mplslimited form mplslimit;
        Session: agreed n a r hasv v hasm m limited mpls mplsn mplslimited limit mplslimit;
        Segment: loose verify nt behaviour hassid sid nai structured structure labelled complete;
        Label: label tc bottom ttl;
        Picked: verdict segment flags sflags reserved;
        Stepped: verdict segment next;
        Writer: ero form at;
        Written: verdict writer;
        Record: keys versions lengths version floor order tops forms;
        Part: number start length form;
        Next: number kind key version place length form;
        Mark: s w;
    }
}

const NONE: (u8, u8) = (0, 0);

/// The paper's numbers, each with its PCErr for an SRv6 ERO, an SRv6 RRO, an MPLS ERO and an MPLS RRO.
const NUMBERS: [(u8, Number, [(u8, u8); 4]); 27] = [
    (reference::answer::OPEN_MALFORMED, Number::OpenMalformed, [(1, 1), (1, 1), (1, 1), (1, 1)]),
    (reference::answer::CAPABILITY_MISSING, Number::CapabilityMissing, [(10, 34), (10, 34), (10, 12), (10, 12)]),
    (reference::answer::WRONG_MSD, Number::WrongMsd, [(1, 1), (1, 1), (10, 21), (10, 21)]),
    (reference::answer::FRAME_BROKEN, Number::FrameBroken, [(10, 11), (10, 11), (10, 11), (10, 11)]),
    (reference::answer::ROUTE_EMPTY, Number::RouteEmpty, [(10, 11), (10, 11), (10, 11), (10, 11)]),
    (reference::answer::KINDS_MIXED, Number::KindsMixed, [(10, 20), (10, 36), (10, 5), (10, 10)]),
    (reference::answer::LENGTH_WRONG, Number::LengthWrong, [(10, 11), (10, 11), (10, 11), (10, 11)]),
    (reference::answer::NAI_UNKNOWN, Number::NaiUnknown, [(10, 13), (10, 13), (10, 13), (10, 13)]),
    (reference::answer::NOTHING_THERE, Number::NothingThere, [(10, 6), (10, 35), (10, 6), (10, 7)]),
    (reference::answer::SID_NEEDED, Number::SidNeeded, [(4, 4), NONE, (4, 4), NONE]),
    (reference::answer::STRUCTURE_TOO_LONG, Number::StructureTooLong, [(10, 37), (10, 37), NONE, NONE]),
    (reference::answer::TOO_MANY_SEGMENTS, Number::TooManySegments, [(10, 3), NONE, (10, 3), NONE]),
    (reference::answer::NOT_AGREED, Number::NotAgreed, [(19, 19), (19, 19), (10, 11), (10, 11)]),
    (reference::answer::NONE_OF_FORM, Number::NoneOfForm, [NONE; 4]),
    (reference::answer::NO_SUCH_SEGMENT, Number::NoSuchSegment, [NONE; 4]),
    (reference::answer::BUFFER_FULL, Number::BufferFull, [NONE; 4]),
    (reference::answer::NOT_A_BOARD, Number::NotABoard, [NONE; 4]),
    (reference::answer::KEY_OUT_OF_RANGE, Number::KeyOutOfRange, [NONE; 4]),
    (reference::answer::BODY_TOO_LONG, Number::BodyTooLong, [NONE; 4]),
    (reference::answer::VERSIONS_USED_UP, Number::VersionsUsedUp, [NONE; 4]),
    (reference::answer::ALL_PATHS, Number::AllPaths, [NONE; 4]),
    (reference::answer::NO_PATH, Number::NoPath, [NONE; 4]),
    (reference::answer::MARK_TOO_OLD, Number::MarkTooOld, [NONE; 4]),
    (reference::answer::MARK_AHEAD, Number::MarkAhead, [NONE; 4]),
    (reference::answer::NOT_USABLE, Number::NotUsable, [NONE; 4]),
    (reference::answer::BAD_LABEL_VALUE, Number::BadLabelValue, [NONE, NONE, (10, 2), (10, 2)]),
    (reference::answer::BAD_LABEL_FORMAT, Number::BadLabelFormat, [NONE, NONE, (10, 4), (10, 4)]),
];

/// Every number and size that the header names, as the paper has them.
fn numbers() -> Vec<u64> {
    let version: Vec<u64> = strundevi::VERSION.split('.').map(|part| part.parse().unwrap_or(u64::MAX)).collect();
    let sizes = [4, 16, 4, 40, 4, 16, 13, 1_048_575, 7, 65_532, 128, 384, 49_152, 1_048_574, u64::MAX - 1, 1, 3, 0, 1, 0, 1, 2, 3];
    let whole = version.iter().fold(0, |sum, part| 100 * sum + part);
    (0..=24).chain([28, 29, 30]).chain(sizes).chain(version).chain([whole]).collect()
}

fn pair(error: Option<PcErr>) -> (u8, u8) {
    error.map_or((0, 0), |error| (error.error_type, error.error_value))
}

/// Records, numbers, sizes, words and PCErrs: those of the header, of the wrapper and of the paper.
pub fn check() -> Result<(), String> {
    if row(header_layout) != layout() {
        return Err(format!("records laid out\nheader  {:?}\nwrapper {:?}", row(header_layout), layout()));
    }
    if row(header_numbers) != numbers() {
        return Err(format!("numbers\nheader {:?}\npaper  {:?}", row(header_numbers), numbers()));
    }
    let ours = [
        strundevi::PLACES as u64,
        strundevi::PLACE_OCTETS as u64,
        strundevi::STORE_OCTETS as u64,
        strundevi::KEY_MOST.into(),
        strundevi::VERSION_MOST,
        strundevi::OBJECT_MOST as u64,
        strundevi::PST_MPLS,
        strundevi::PST_SRV6,
        strundevi::Label::MOST.into(),
        strundevi::FIRST_PLACE as u64,
    ];
    if ours != [128, 384, 49_152, 1_048_574, u64::MAX - 1, 65_532, 1, 3, 1_048_575, 4] {
        return Err(format!("sizes\nwrapper {ours:?}"));
    }
    for (n, &(number, named, paper)) in (1..=24).chain([28, 29, 30]).zip(&NUMBERS) {
        if (number as usize, named as usize) != (n, n) {
            return Err(format!("number {n}\nreference {number}\nwrapper   {named:?} {}", named as u8));
        }
        if text(n) != named.text() || named.text().is_empty() || named.to_string() != format!("{n}: {}", named.text()) {
            return Err(format!("words of {n}\nheader  {}\nwrapper {} ({named})", text(n), named.text()));
        }
        let asked = [(Kind::Ero, Form::Srv6), (Kind::Rro, Form::Srv6), (Kind::Ero, Form::Mpls), (Kind::Rro, Form::Mpls)];
        for ((kind, form), paper) in asked.into_iter().zip(paper) {
            // a form that is not 1 is SRv6's
            for pst in if form == Form::Mpls { &[1][..] } else { &[3, 0, 2, 257, u64::MAX] } {
                let header = unsafe { header_pcerr(n, (kind == Kind::Ero) as u8, *pst) };
                let (header, wrapper) = ((header.error_type, header.error_value), pair(named.pcerr(kind, form)));
                if header != paper || wrapper != paper {
                    return Err(format!("PCErr of {n} in {kind:?} of {form:?}\nheader  {header:?}\nwrapper {wrapper:?}\npaper   {paper:?}"));
                }
            }
        }
    }
    if text(0) != "accepted" || text(25) != text(usize::MAX) || unsafe { header_pcerr(0, 1, 1) }.error_type != 0 {
        return Err("words of no number".to_string());
    }
    for pst in [0, 1, 2, 3, 4, 257, 1 << 32 | 1, u64::MAX] {
        let form = Form::of(pst);
        if (form == Form::Mpls) != (pst == 1) || form.pst() != if pst == 1 { 1 } else { 3 } {
            return Err(format!("setup type {pst} is {form:?}, of setup type {}", form.pst()));
        }
        for nt in 0..=255 {
            let (header, paper) = (unsafe { header_nai_octets(pst, nt) }, reference::Form::of(pst).nai_size(nt).unwrap_or(0));
            if header != paper {
                return Err(format!("octets of NT {nt} in {form:?}\nheader {header}\npaper  {paper}"));
            }
        }
    }
    labels()?;
    for version in [0, 1, 77, u64::MAX] {
        let (ours, theirs) = (strundevi::Mark::level(version), unsafe { header_mark_level(version) });
        if (ours.s, ours.w) != (version, version) || (theirs.s, theirs.w) != (version, version) {
            return Err(format!("level at {version}\nwrapper {} {}\nheader  {} {}", ours.s, ours.w, theirs.s, theirs.w));
        }
    }
    Ok(())
}

/// Labels and indices in a segment: those of header and wrapper, and what RFC 3032 makes of the four octets.
fn labels() -> Result<(), String> {
    let corners = [0u32, 1, 0xff, 0x100, 0x1ff, 0x200, 0xe00, 0xfff, 0x1000, 0x3000, 0x7000, 0xf000, 0x10000, 0x0abc_d5a7, 0x1234_5b67, 0x8000_0000, u32::MAX];
    for octets in (0..32).map(|bit| 1 << bit).chain(corners) {
        let [a, b, c, d] = octets.to_be_bytes().map(u32::from);
        let paper = Label { label: a << 12 | b << 4 | c >> 4, tc: (c >> 1 & 7) as u8, bottom: (c & 1) as u8, ttl: d as u8 };
        for complete in [0, 1, 200] {
            let mut segment = Segment { nt: 3, sid: [0xEE; 16], ..Segment::ZERO };
            let taken = unsafe { header_set_label(&mut segment, paper, complete) };
            let read = unsafe { (header_label_of(&segment), header_index_of(&segment)) };
            let mut expected = Segment { nt: 3, hassid: 1, labelled: 1, complete: (complete != 0) as u8, ..Segment::ZERO };
            expected.sid[..4].copy_from_slice(&octets.to_be_bytes());
            if taken != 1 || segment != expected || read != (paper, octets) {
                return Err(format!("header: label {paper:?}\nset  {segment:?}\nread {read:?}"));
            }
            unsafe { header_set_index(&mut segment, octets) };
            if segment != (Segment { labelled: 0, complete: 0, ..expected }) {
                return Err(format!("header: index {octets}\nset {segment:?}"));
            }
        }
        let ours = strundevi::Label::new(paper.label, paper.tc, paper.bottom != 0, paper.ttl);
        let told = ours.map(|l| (l.label(), l.tc(), l.s() as u8, l.ttl(), l.octets()));
        let back = strundevi::Label::from_octets(octets.to_be_bytes());
        if told != Some((paper.label, paper.tc, paper.bottom, paper.ttl, octets.to_be_bytes())) || ours != Some(back) {
            return Err(format!("wrapper: label {paper:?}\ntold {told:?}"));
        }
        let only = strundevi::Label::only(paper.label).map(|l| l.octets());
        if only != Some((paper.label << 12).to_be_bytes()) {
            return Err(format!("wrapper: label {} alone is {only:?}", paper.label));
        }
    }
    // more bits than there are
    for (label, tc, bottom) in [(1 << 20, 0, 0), (u32::MAX, 0, 0), (16, 8, 0), (16, 255, 0), (16, 0, 2), (16, 0, 255)] {
        let (mut segment, wide) = (Segment { nt: 3, ..Segment::ZERO }, Label { label, tc, bottom, ttl: 9 });
        let taken = unsafe { header_set_label(&mut segment, wide, 1) };
        if taken != 0 || segment != (Segment { nt: 3, ..Segment::ZERO }) || bottom < 2 && strundevi::Label::new(label, tc, false, 9).is_some() {
            return Err(format!("{wide:?} is taken"));
        }
    }
    Ok(())
}
