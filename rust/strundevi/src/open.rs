//! What an OPEN object says, and the session of two of them.

use crate::answer::{Number, PcErr, Refusal};
use crate::form::{Form, PST_MPLS, PST_SRV6};
use crate::raw;
use crate::route::Kind;
use core::fmt;

/// Where A and R stand among the 16 flags of sub-TLV 27, position 0 the highest. They are still unassigned: two different ones of 0 to 13.
#[derive(Clone, Copy, Debug, PartialEq, Eq)]
pub struct Setup {
    pub a: u64,
    pub r: u64,
}

impl Setup {
    /// Positions 0 and 1.
    pub const FIRST_TWO: Setup = Setup { a: 0, r: 1 };
}

/// What an OPEN says of MPLS, or what is agreed: N, and the depth that limits an ERO, if one does.
#[derive(Clone, Copy, Debug, Default, PartialEq, Eq)]
pub struct Mpls {
    pub n: bool,
    pub limit: Option<usize>,
}

/// An accepted OPEN. Without SRv6, `n`, `a` and `r` are false and there are no limit, `v` and `m`, which are the smallest values of H.Encaps and of
/// Segments Left.
#[derive(Clone, Copy, Debug, Default, PartialEq, Eq)]
pub struct Open {
    pub srv6: bool,
    pub n: bool,
    pub limit: Option<usize>,
    pub a: bool,
    pub r: bool,
    pub v: Option<u8>,
    pub m: Option<u8>,
    pub mpls: Option<Mpls>,
}

/// Why an OPEN is refused, and the form at fault, if it is one's.
#[derive(Clone, Copy, Debug, PartialEq, Eq, Hash)]
pub struct OpenRefusal {
    pub number: Number,
    pub form: Option<Form>,
}

impl OpenRefusal {
    /// The PCErr to send to the peer. None: the fault is on this box.
    ///
    /// ```
    /// use strundevi::{Form, Number, OpenRefusal};
    /// let error = |form| OpenRefusal { number: Number::CapabilityMissing, form }.pcerr().unwrap().error_value;
    /// assert_eq!((error(Some(Form::Mpls)), error(Some(Form::Srv6))), (12, 34));
    /// ```
    pub fn pcerr(self) -> Option<PcErr> {
        self.number.pcerr(Kind::Ero, self.form.unwrap_or(Form::Srv6))
    }
}

/// Number, form and words; no form where it is none's.
///
/// ```
/// use strundevi::{Form, Number, OpenRefusal};
/// assert_eq!(OpenRefusal { number: Number::CapabilityMissing, form: Some(Form::Mpls) }.to_string(), "2 of MPLS: capability missing");
/// ```
impl fmt::Display for OpenRefusal {
    fn fmt(&self, f: &mut fmt::Formatter<'_>) -> fmt::Result {
        let form = match self.form {
            None => return self.number.fmt(f),
            Some(Form::Mpls) => "MPLS",
            Some(Form::Srv6) => "SRv6",
        };
        write!(f, "{} of {form}: {}", self.number as u8, self.number.text())
    }
}

impl core::error::Error for OpenRefusal {}

/// As a refusal that names a place: 0.
impl From<OpenRefusal> for Refusal {
    fn from(refusal: OpenRefusal) -> Refusal {
        Refusal { number: refusal.number, place: 0 }
    }
}

/// What reading an OPEN answers.
pub type OpenResult = core::result::Result<Open, OpenRefusal>;

/// A session, with a half for each form. SRv6 agreed or not, the PCC's N and limit; A and R agreed or not, the PCC's v and m; MPLS, if it is agreed, with the
/// PCC's N and limit. No route has 65,535 segments, and a larger limit counts as that. Of an ERO whose first segment stays off the header (R agreed, or A agreed and
/// it is an adjacency of the head end) v and m decide, v + 1 and m + 1 segments, and where there is a v the limit does not count.
#[derive(Clone, Copy, Debug, Default, PartialEq, Eq)]
pub struct Session {
    pub agreed: bool,
    pub n: bool,
    pub limit: Option<usize>,
    pub a: bool,
    pub r: bool,
    pub v: Option<u8>,
    pub m: Option<u8>,
    pub mpls: Option<Mpls>,
}

#[inline]
fn given<T>(there: u8, value: T) -> Option<T> {
    (there != 0).then_some(value)
}

/// Reads an OPEN object, from its class octet on, with A and R at the positions of set-up. Refused with 28; then 1, 2, 3, and within each number MPLS's capability
/// before SRv6's.
#[inline]
pub fn read_open(at: Setup, octets: &[u8]) -> OpenResult {
    let r = raw::read_open(raw::Setup { a: at.a, r: at.r }, octets);
    if r.number != 0 {
        let form = match r.form.into() {
            PST_MPLS => Some(Form::Mpls),
            PST_SRV6 => Some(Form::Srv6),
            _ => None,
        };
        return Err(OpenRefusal { number: Number::of(r.number), form });
    }
    Ok(Open {
        srv6: r.srv6 != 0,
        n: r.n != 0,
        limit: given(r.limited, r.limit),
        a: r.a != 0,
        r: r.r != 0,
        v: given(r.hasv, r.v),
        m: given(r.hasm, r.m),
        mpls: given(r.mpls, Mpls { n: r.mplsn != 0, limit: given(r.mplslimited, r.mplslimit) }),
    })
}

fn opened(answer: &OpenResult) -> raw::Opened {
    let (number, form, open) = match answer {
        Ok(open) => (0, None, *open),
        Err(refusal) => (refusal.number as usize, refusal.form, Open::default()),
    };
    let mpls = open.mpls.unwrap_or_default();
    raw::Opened {
        number,
        srv6: open.srv6 as u8,
        n: open.n as u8,
        limited: open.limit.is_some() as u8,
        limit: open.limit.unwrap_or(0),
        a: open.a as u8,
        r: open.r as u8,
        hasv: open.v.is_some() as u8,
        v: open.v.unwrap_or(0),
        hasm: open.m.is_some() as u8,
        m: open.m.unwrap_or(0),
        mpls: open.mpls.is_some() as u8,
        mplsn: mpls.n as u8,
        mplslimited: mpls.limit.is_some() as u8,
        form: form.map_or(0, |form| form.pst() as u8),
        mplslimit: mpls.limit.unwrap_or(0),
    }
}

/// A limit in 16 bits.
#[inline]
fn short(limit: Option<usize>) -> u16 {
    limit.map_or(0, |limit| limit.min(usize::from(u16::MAX)) as u16)
}

impl Session {
    /// The session of the PCC's and the PCE's answers. A refused OPEN carries neither form.
    pub fn agree(pcc: &OpenResult, pce: &OpenResult) -> Session {
        let r = raw::agree(opened(pcc), opened(pce));
        Session {
            agreed: r.agreed != 0,
            n: r.n != 0,
            limit: given(r.limited, r.limit.into()),
            a: r.a != 0,
            r: r.r != 0,
            v: given(r.hasv, r.v),
            m: given(r.hasm, r.m),
            mpls: given(r.mpls, Mpls { n: r.mplsn != 0, limit: given(r.mplslimited, r.mplslimit.into()) }),
        }
    }

    #[inline]
    pub(crate) fn raw(&self) -> raw::Session {
        let mpls = self.mpls.unwrap_or_default();
        raw::Session {
            agreed: self.agreed as u8,
            n: self.n as u8,
            a: self.a as u8,
            r: self.r as u8,
            hasv: self.v.is_some() as u8,
            v: self.v.unwrap_or(0),
            hasm: self.m.is_some() as u8,
            m: self.m.unwrap_or(0),
            limited: self.limit.is_some() as u8,
            mpls: self.mpls.is_some() as u8,
            mplsn: mpls.n as u8,
            mplslimited: mpls.limit.is_some() as u8,
            limit: short(self.limit),
            mplslimit: short(mpls.limit),
        }
    }
}
