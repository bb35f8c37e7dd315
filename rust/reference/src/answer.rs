//! What a call answers: its content, or the number of the first broken rule and the place of the fault.

#[derive(Clone, Copy, Debug, PartialEq, Eq)]
pub struct Refusal {
    pub number: u8,
    pub place: usize,
}

pub type Answer<T> = Result<T, Refusal>;

pub const OPEN_MALFORMED: u8 = 1;
pub const CAPABILITY_MISSING: u8 = 2;
pub const WRONG_MSD: u8 = 3;
pub const FRAME_BROKEN: u8 = 4;
pub const ROUTE_EMPTY: u8 = 5;
pub const KINDS_MIXED: u8 = 6;
pub const LENGTH_WRONG: u8 = 7;
pub const NAI_UNKNOWN: u8 = 8;
pub const NOTHING_THERE: u8 = 9;
pub const SID_NEEDED: u8 = 10;
pub const STRUCTURE_TOO_LONG: u8 = 11;
pub const TOO_MANY_SEGMENTS: u8 = 12;
pub const NOT_AGREED: u8 = 13;
pub const NONE_OF_FORM: u8 = 14;
pub const NO_SUCH_SEGMENT: u8 = 15;
pub const BUFFER_FULL: u8 = 16;
pub const NOT_A_BOARD: u8 = 17;
pub const KEY_OUT_OF_RANGE: u8 = 18;
pub const BODY_TOO_LONG: u8 = 19;
pub const VERSIONS_USED_UP: u8 = 20;
pub const ALL_PATHS: u8 = 21;
pub const NO_PATH: u8 = 22;
pub const MARK_TOO_OLD: u8 = 23;
pub const MARK_AHEAD: u8 = 24;
pub const NOT_USABLE: u8 = 28;
pub const BAD_LABEL_VALUE: u8 = 29;
pub const BAD_LABEL_FORMAT: u8 = 30;

/// A refusal of the whole: its place is 0.
#[inline]
pub fn refuse<T>(number: u8) -> Answer<T> {
    Err(Refusal { number, place: 0 })
}

#[inline]
pub fn refuse_at<T>(number: u8, place: usize) -> Answer<T> {
    Err(Refusal { number, place })
}
