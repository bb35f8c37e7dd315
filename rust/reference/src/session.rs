//! A session: made of the PCC's and the PCE's OPEN answers, with a half for each form. A form is agreed if both carry it; its N and its limit, and SRv6's v
//! and m, are the PCC's; A and R are agreed if SRv6 is and both set them.

use crate::open::{Mpls, Open, OpenAnswer};

#[derive(Clone, Copy, Debug, Default, PartialEq, Eq)]
pub struct Session {
    /// SRv6 is agreed; without it the six that follow are false or none.
    pub agreed: bool,
    pub n: bool,
    pub limit: Option<usize>,
    pub a: bool,
    pub r: bool,
    pub v: Option<u8>,
    pub m: Option<u8>,
    /// MPLS, if it is agreed.
    pub mpls: Option<Mpls>,
}

impl Session {
    /// A refused OPEN carries neither form, and without a form there is neither its N nor its limit.
    pub fn agree(pcc: &OpenAnswer, pce: &OpenAnswer) -> Session {
        let pcc = pcc.unwrap_or_default();
        let pce = pce.unwrap_or_default();
        let mpls = pcc.mpls.filter(|_| pce.mpls.is_some());
        if !pcc.srv6 || !pce.srv6 {
            return Session { mpls, ..Session::default() };
        }
        let Open { n, limit, v, m, .. } = pcc;
        Session { agreed: true, n, limit, a: pcc.a && pce.a, r: pcc.r && pce.r, v, m, mpls }
    }
}
