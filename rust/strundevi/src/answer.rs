//! A refusal: the number of the first broken rule, and the octet of the fault or 0.

use crate::form::Form;
use crate::raw;
use crate::route::Kind;
use core::fmt;

macro_rules! numbers {
    ($($name:ident = $number:literal, $text:literal;)*) => {
        /// Why a call was refused.
        #[derive(Clone, Copy, Debug, PartialEq, Eq, Hash, PartialOrd, Ord)]
        #[non_exhaustive]
        #[repr(u8)]
        pub enum Number {
            $(#[doc = $text] $name = $number,)*
        }

        impl Number {
            #[inline]
            pub(crate) fn of(number: usize) -> Number {
                match number {
                    $($number => Number::$name,)*
                    _ => unreachable!("the library answers no number {number}"),
                }
            }

            /// A few words for the number.
            pub fn text(self) -> &'static str {
                match self {
                    $(Number::$name => $text,)*
                }
            }
        }
    };
}

numbers! {
    OpenMalformed = 1, "OPEN ill formed";
    CapabilityMissing = 2, "capability missing";
    WrongMsd = 3, "wrong MSD type, or a depth of 0";
    FrameBroken = 4, "route frame broken";
    RouteEmpty = 5, "route empty";
    KindsMixed = 6, "kinds mixed";
    LengthWrong = 7, "F isn't 1 exactly for NT 0, or Length or M and C aren't as expected";
    NaiUnknown = 8, "NT not one of the form's";
    NothingThere = 9, "S and F both 1";
    SidNeeded = 10, "no SID, and the PCC's N is 0";
    StructureTooLong = 11, "four bit lengths sum above 128";
    TooManySegments = 12, "more segments than the limit";
    NotAgreed = 13, "form not agreed";
    NoneOfForm = 14, "no subobject of the form";
    NoSuchSegment = 15, "no such segment";
    BufferFull = 16, "lent buffer full";
    NotABoard = 17, "not a board";
    KeyOutOfRange = 18, "key out of range";
    BodyTooLong = 19, "body above 384 octets";
    VersionsUsedUp = 20, "version is 2^64-2";
    AllPaths = 21, "128 paths";
    NoPath = 22, "key has no path";
    MarkTooOld = 23, "mark too old";
    MarkAhead = 24, "mark ahead";
    NotUsable = 28, "unusable bit positions, or address list not a multiple of 16 octets";
    BadLabelValue = 29, "bad label value";
    BadLabelFormat = 30, "bad label format";
}

/// Error-Type and Error-value of a PCErr.
#[derive(Clone, Copy, Debug, PartialEq, Eq, Hash)]
pub struct PcErr {
    pub error_type: u8,
    pub error_value: u8,
}

impl Number {
    /// The PCErr to send to the peer for the refusal of an OPEN with this form at fault, or of a route of this kind and form. None: no PCErr is fixed for it; 14
    /// is most often the peer's fault, 15 to 28 are this box's own.
    ///
    /// ```
    /// use strundevi::{Form, Kind, Number};
    /// let error = Number::KindsMixed.pcerr(Kind::Rro, Form::Srv6).unwrap();
    /// assert_eq!((error.error_type, error.error_value), (10, 36));
    /// assert_eq!(Number::BadLabelValue.pcerr(Kind::Ero, Form::Mpls).unwrap().error_value, 2);
    /// assert_eq!(Number::NotABoard.pcerr(Kind::Ero, Form::Srv6), None);
    /// ```
    pub fn pcerr(self, kind: Kind, form: Form) -> Option<PcErr> {
        use Form::{Mpls, Srv6};
        use Kind::{Ero, Rro};
        let (error_type, error_value) = match (self, kind, form) {
            (Number::OpenMalformed, _, _) => (1, 1),
            (Number::CapabilityMissing, _, Mpls) => (10, 12),
            (Number::CapabilityMissing, _, Srv6) => (10, 34),
            (Number::WrongMsd, _, Mpls) => (10, 21),
            (Number::WrongMsd, _, Srv6) => (1, 1),
            (Number::FrameBroken | Number::RouteEmpty | Number::LengthWrong, _, _) => (10, 11),
            (Number::KindsMixed, Ero, Mpls) => (10, 5),
            (Number::KindsMixed, Rro, Mpls) => (10, 10),
            (Number::KindsMixed, Ero, Srv6) => (10, 20),
            (Number::KindsMixed, Rro, Srv6) => (10, 36),
            (Number::NaiUnknown, _, _) => (10, 13),
            (Number::NothingThere, Ero, _) => (10, 6),
            (Number::NothingThere, Rro, Mpls) => (10, 7),
            (Number::NothingThere, Rro, Srv6) => (10, 35),
            (Number::SidNeeded, Ero, _) => (4, 4),
            (Number::StructureTooLong, _, Srv6) => (10, 37),
            (Number::TooManySegments, Ero, _) => (10, 3),
            (Number::NotAgreed, _, Mpls) => (10, 11),
            (Number::NotAgreed, _, Srv6) => (19, 19),
            (Number::BadLabelValue, _, Mpls) => (10, 2),
            (Number::BadLabelFormat, _, Mpls) => (10, 4),
            _ => return None,
        };
        Some(PcErr { error_type, error_value })
    }
}

/// The number and its words.
impl fmt::Display for Number {
    fn fmt(&self, f: &mut fmt::Formatter<'_>) -> fmt::Result {
        write!(f, "{}: {}", *self as u8, self.text())
    }
}

/// Why a call was refused, and where. Nothing has changed then.
#[derive(Clone, Copy, Debug, PartialEq, Eq, Hash)]
pub struct Refusal {
    pub number: Number,
    /// The octet of the fault, counted from the object's start, for the numbers 6 to 12 of a route; otherwise 0.
    pub place: usize,
}

/// What a call answers.
pub type Result<T> = core::result::Result<T, Refusal>;

/// Number, place and words; no place where none is named.
///
/// ```
/// use strundevi::{read_open, Number, Refusal, Setup};
/// assert_eq!(read_open(Setup::FIRST_TWO, &[]).unwrap_err().to_string(), "1: OPEN ill formed");
/// assert_eq!(Refusal { number: Number::NaiUnknown, place: 28 }.to_string(), "8 at 28: NT not one of the form's");
/// ```
impl fmt::Display for Refusal {
    fn fmt(&self, f: &mut fmt::Formatter<'_>) -> fmt::Result {
        match self.place {
            0 => self.number.fmt(f),
            place => write!(f, "{} at {place}: {}", self.number as u8, self.number.text()),
        }
    }
}

impl core::error::Error for Refusal {}

/// What an accepted route carries.
#[derive(Clone, Copy, Debug, PartialEq, Eq, Hash)]
pub struct Counts {
    /// How many segments it has.
    pub segments: usize,
    /// How many of them have something set that ought to be 0 ([`Strays`](crate::Strays)). They are good segments: the neighbour's box is odd.
    pub stray: usize,
}

impl raw::Verdict {
    /// The counts of an acceptance.
    #[inline]
    pub(crate) fn counts(self) -> Result<Counts> {
        match self.number {
            0 => Ok(Counts { segments: self.count, stray: self.stray }),
            number => Err(Refusal { number: Number::of(number), place: self.place }),
        }
    }
}

/// A refusal of the whole, with what an acceptance carries.
#[inline]
pub(crate) fn answer<T>(number: usize, content: impl FnOnce() -> T) -> Result<T> {
    match number {
        0 => Ok(content()),
        number => Err(Refusal { number: Number::of(number), place: 0 }),
    }
}
