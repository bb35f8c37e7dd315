//! The archive's own functions and records, and the only unsafe code of this crate.
//!
//! What the archive asks of a caller, and how it is kept here: every pointer is that of a reference or a slice, so it is not null, it is good for
//! the length given, and no two that a call may write through overlap; every record is laid out as in include/strundevi.h. Flags are octets:
//! 0 is no and every other number yes, so no value of a record is out of range.
#![allow(unsafe_code)]

pub const PLACES: usize = 128;

#[repr(C)]
#[derive(Clone, Copy)]
pub struct Verdict {
    pub number: usize,
    pub place: usize,
    pub count: usize,
    pub stray: usize,
}

#[repr(C)]
#[derive(Clone, Copy)]
pub struct Setup {
    pub a: u64,
    pub r: u64,
}

#[repr(C)]
#[derive(Clone, Copy)]
pub struct Opened {
    pub number: usize,
    pub srv6: u8,
    pub n: u8,
    pub limited: u8,
    pub limit: usize,
    pub a: u8,
    pub r: u8,
    pub hasv: u8,
    pub v: u8,
    pub hasm: u8,
    pub m: u8,
    pub mpls: u8,
    pub mplsn: u8,
    pub mplslimited: u8,
    pub form: u8,
    pub mplslimit: usize,
}

#[repr(C)]
#[derive(Clone, Copy)]
pub struct Session {
    pub agreed: u8,
    pub n: u8,
    pub a: u8,
    pub r: u8,
    pub hasv: u8,
    pub v: u8,
    pub hasm: u8,
    pub m: u8,
    pub limited: u8,
    pub mpls: u8,
    pub mplsn: u8,
    pub mplslimited: u8,
    pub limit: u16,
    pub mplslimit: u16,
}

#[repr(C)]
#[derive(Clone, Copy, Debug, PartialEq, Eq)]
pub struct Segment {
    pub loose: u8,
    pub verify: u8,
    pub nt: u8,
    pub behaviour: u16,
    pub hassid: u8,
    pub sid: [u8; 16],
    pub nai: [u8; 40],
    pub structured: u8,
    pub structure: [u8; 4],
    pub labelled: u8,
    pub complete: u8,
}

impl Segment {
    /// The segment that says nothing.
    pub const ZERO: Segment = Segment {
        loose: 0,
        verify: 0,
        nt: 0,
        behaviour: 0,
        hassid: 0,
        sid: [0; 16],
        nai: [0; 40],
        structured: 0,
        structure: [0; 4],
        labelled: 0,
        complete: 0,
    };
}

#[repr(C)]
#[derive(Clone, Copy)]
pub struct Picked {
    pub verdict: Verdict,
    pub segment: Segment,
    pub flags: u16,
    pub sflags: u8,
    pub reserved: u8,
}

#[repr(C)]
#[derive(Clone, Copy)]
pub struct Stepped {
    pub verdict: Verdict,
    pub segment: Segment,
    pub next: usize,
}

/// What a segment names beside its octets: the header's record, `strundevi_outline`, as one number, which goes in a register. A record stored octet by octet
/// and loaded as one number makes the processor wait.
#[repr(transparent)]
#[derive(Clone, Copy)]
struct Outline(u64);

const _: () = assert!(cfg!(target_endian = "little"));

impl Outline {
    #[inline]
    fn of(s: &Segment) -> Self {
        let at = |octet: u8, place: u32| (octet as u64) << (8 * place);
        let label = (s.labelled != 0) as u8 | ((s.complete != 0) as u8) << 1;
        Self(at(s.loose, 0) | at(s.verify, 1) | at(s.nt, 2) | at(label, 3) | (s.behaviour as u64) << 32 | at(s.hassid, 6) | at(s.structured, 7))
    }
}

#[repr(C)]
#[derive(Clone, Copy)]
pub struct Writer {
    pub ero: u8,
    pub form: u8,
    pub at: usize,
}

#[repr(C)]
#[derive(Clone, Copy)]
pub struct Written {
    pub verdict: Verdict,
    pub writer: Writer,
}

#[repr(C)]
#[derive(Clone, Copy)]
pub struct Part {
    pub number: usize,
    pub start: usize,
    pub length: usize,
    pub form: usize,
}

#[repr(C)]
#[derive(Clone, Copy)]
pub struct Next {
    pub number: usize,
    pub kind: usize,
    pub key: u64,
    pub version: u64,
    pub place: usize,
    pub length: usize,
    pub form: usize,
}

#[repr(C)]
#[derive(Clone, Copy)]
pub struct Mark {
    pub s: u64,
    pub w: u64,
}

/// The board's record, lent to the archive part by part.
#[repr(C)]
#[derive(Clone, Copy, Debug, PartialEq, Eq)]
pub struct Record {
    pub keys: [u32; PLACES],
    pub versions: [u64; PLACES],
    pub lengths: [u16; PLACES],
    pub version: u64,
    pub floor: u64,
    pub order: [u8; PLACES],
    pub tops: [u64; PLACES / 8],
    pub forms: [u8; PLACES],
}

type Keys = [u32; PLACES];
type Versions = [u64; PLACES];
type Lengths = [u16; PLACES];
type Order = [u8; PLACES];
type Tops = [u64; PLACES / 8];
type Forms = [u8; PLACES];

extern "C" {
    fn strundevi_raw_read_open(setup: Setup, octets: *const u8, length: usize) -> Opened;
    fn strundevi_raw_agree(pcc: Opened, pce: Opened) -> Session;
    fn strundevi_raw_judge(octets: *const u8, length: usize, ero: u8, session: Session, pst: u64, addresses: *const u8, given: usize) -> Verdict;
    fn strundevi_raw_segment_at(
        octets: *const u8,
        length: usize,
        ero: u8,
        session: Session,
        pst: u64,
        addresses: *const u8,
        given: usize,
        i: u64,
    ) -> Picked;
    fn strundevi_raw_step(octets: *const u8, length: usize, ero: u8, pst: u64, at: usize) -> Stepped;
    fn strundevi_raw_begin(buffer: *mut u8, size: usize, writer: Writer, ero: u8, pst: u64) -> Written;
    fn strundevi_raw_add(
        buffer: *mut u8,
        size: usize,
        writer: Writer,
        outline: Outline,
        sid: *const [u8; 16],
        nai: *const [u8; 40],
        structure: *const [u8; 4],
    ) -> Written;
    fn strundevi_raw_finish(buffer: *mut u8, size: usize, writer: Writer) -> Written;
    fn strundevi_raw_empty(
        keys: *mut Keys,
        versions: *mut Versions,
        lengths: *mut Lengths,
        version: *mut u64,
        floor: *mut u64,
        order: *mut Order,
        tops: *mut Tops,
        forms: *mut Forms,
    );
    fn strundevi_raw_report(
        keys: *mut Keys,
        versions: *mut Versions,
        lengths: *mut Lengths,
        version: *mut u64,
        floor: *mut u64,
        order: *mut Order,
        tops: *mut Tops,
        forms: *mut Forms,
        store: *mut u8,
        size: usize,
        key: u64,
        ero: *const u8,
        length: usize,
        session: Session,
        pst: u64,
        addresses: *const u8,
        given: usize,
    ) -> Verdict;
    fn strundevi_raw_remove(
        keys: *const Keys,
        versions: *mut Versions,
        lengths: *mut Lengths,
        version: *mut u64,
        floor: u64,
        order: *mut Order,
        tops: *mut Tops,
        forms: *mut Forms,
        store: *const u8,
        size: usize,
        key: u64,
    ) -> Verdict;
    fn strundevi_raw_compact(
        keys: *mut Keys,
        versions: *mut Versions,
        lengths: *const Lengths,
        version: u64,
        floor: *mut u64,
        order: *mut Order,
        tops: *mut Tops,
        forms: *const Forms,
        store: *const u8,
        size: usize,
        c: u64,
    ) -> Verdict;
    fn strundevi_raw_body(
        keys: *const Keys,
        versions: *const Versions,
        lengths: *const Lengths,
        version: u64,
        floor: u64,
        order: *const Order,
        tops: *const Tops,
        forms: *const Forms,
        store: *const u8,
        size: usize,
        key: u64,
    ) -> Part;
    fn strundevi_raw_next(
        keys: *const Keys,
        versions: *const Versions,
        lengths: *const Lengths,
        version: u64,
        floor: u64,
        order: *const Order,
        tops: *const Tops,
        forms: *const Forms,
        store: *const u8,
        size: usize,
        s: u64,
        w: u64,
    ) -> Next;
    fn strundevi_raw_moved(
        keys: *const Keys,
        versions: *const Versions,
        lengths: *const Lengths,
        version: u64,
        floor: u64,
        order: *const Order,
        tops: *const Tops,
        forms: *const Forms,
        store: *const u8,
        size: usize,
        from: u64,
        to: u64,
        v: u64,
    ) -> Verdict;
    fn strundevi_raw_fresh_mark(version: u64) -> Mark;
}

#[inline]
pub fn read_open(setup: Setup, octets: &[u8]) -> Opened {
    unsafe { strundevi_raw_read_open(setup, octets.as_ptr(), octets.len()) }
}

#[inline]
pub fn agree(pcc: Opened, pce: Opened) -> Session {
    unsafe { strundevi_raw_agree(pcc, pce) }
}

#[inline]
pub fn judge(octets: &[u8], ero: u8, session: Session, pst: u64, addresses: &[u8]) -> Verdict {
    unsafe { strundevi_raw_judge(octets.as_ptr(), octets.len(), ero, session, pst, addresses.as_ptr(), addresses.len()) }
}

#[inline]
pub fn segment(octets: &[u8], ero: u8, session: Session, pst: u64, addresses: &[u8], i: u64) -> Picked {
    unsafe { strundevi_raw_segment_at(octets.as_ptr(), octets.len(), ero, session, pst, addresses.as_ptr(), addresses.len(), i) }
}

#[inline]
pub fn step(octets: &[u8], ero: u8, pst: u64, at: usize) -> Stepped {
    unsafe { strundevi_raw_step(octets.as_ptr(), octets.len(), ero, pst, at) }
}

#[inline]
pub fn begin(buffer: &mut [u8], writer: Writer, ero: u8, pst: u64) -> Written {
    unsafe { strundevi_raw_begin(buffer.as_mut_ptr(), buffer.len(), writer, ero, pst) }
}

#[inline]
pub fn add(buffer: &mut [u8], writer: Writer, segment: &Segment) -> Written {
    unsafe { strundevi_raw_add(buffer.as_mut_ptr(), buffer.len(), writer, Outline::of(segment), &segment.sid, &segment.nai, &segment.structure) }
}

#[inline]
pub fn finish(buffer: &mut [u8], writer: Writer) -> Written {
    unsafe { strundevi_raw_finish(buffer.as_mut_ptr(), buffer.len(), writer) }
}

#[inline]
pub fn empty(b: &mut Record) {
    unsafe { strundevi_raw_empty(&mut b.keys, &mut b.versions, &mut b.lengths, &mut b.version, &mut b.floor, &mut b.order, &mut b.tops, &mut b.forms) }
}

#[inline]
pub fn report(b: &mut Record, store: &mut [u8], key: u64, ero: &[u8], session: Session, pst: u64, addresses: &[u8]) -> Verdict {
    unsafe {
        strundevi_raw_report(
            &mut b.keys,
            &mut b.versions,
            &mut b.lengths,
            &mut b.version,
            &mut b.floor,
            &mut b.order,
            &mut b.tops,
            &mut b.forms,
            store.as_mut_ptr(),
            store.len(),
            key,
            ero.as_ptr(),
            ero.len(),
            session,
            pst,
            addresses.as_ptr(),
            addresses.len(),
        )
    }
}

#[inline]
pub fn remove(b: &mut Record, store: &[u8], key: u64) -> Verdict {
    let (octets, size) = (store.as_ptr(), store.len());
    unsafe { strundevi_raw_remove(&b.keys, &mut b.versions, &mut b.lengths, &mut b.version, b.floor, &mut b.order, &mut b.tops, &mut b.forms, octets, size, key) }
}

#[inline]
pub fn compact(b: &mut Record, store: &[u8], c: u64) -> Verdict {
    let (octets, size) = (store.as_ptr(), store.len());
    unsafe { strundevi_raw_compact(&mut b.keys, &mut b.versions, &b.lengths, b.version, &mut b.floor, &mut b.order, &mut b.tops, &b.forms, octets, size, c) }
}

#[inline]
pub fn body(b: &Record, store: &[u8], key: u64) -> Part {
    unsafe { strundevi_raw_body(&b.keys, &b.versions, &b.lengths, b.version, b.floor, &b.order, &b.tops, &b.forms, store.as_ptr(), store.len(), key) }
}

#[inline]
pub fn next(b: &Record, store: &[u8], s: u64, w: u64) -> Next {
    unsafe { strundevi_raw_next(&b.keys, &b.versions, &b.lengths, b.version, b.floor, &b.order, &b.tops, &b.forms, store.as_ptr(), store.len(), s, w) }
}

#[inline]
pub fn moved(b: &Record, store: &[u8], from: u64, to: u64, v: u64) -> Verdict {
    unsafe { strundevi_raw_moved(&b.keys, &b.versions, &b.lengths, b.version, b.floor, &b.order, &b.tops, &b.forms, store.as_ptr(), store.len(), from, to, v) }
}

#[inline]
pub fn fresh_mark(version: u64) -> Mark {
    unsafe { strundevi_raw_fresh_mark(version) }
}
