//! Writing a route: begun, given one segment at a time, finished, in a lent buffer. What was refused changes nothing.
//!
//! Adding is refused with 8, 9, 7 (a structure without a SID, L or V in an RRO, what the form has not, octets not 0 where a part is absent or shorter), 11, 29,
//! 30, then 16 if the object would pass the buffer's end or 65,532 octets. A place under 4, no multiple of 4 or past that end is 16; a finish at 4 is 5.

use crate::answer::*;
use crate::form::Form;
use crate::mpls::Mpls;
use crate::route::{Kind, OBJECT_TYPE};
use crate::segment::{Layout, Segment};
use crate::srv6::Srv6;

pub const MOST_OCTETS: usize = 65_532;

/// The form is a setup type, which begin makes that of a form.
#[derive(Clone, Copy, Debug, PartialEq, Eq)]
pub struct Writer {
    pub kind: Kind,
    pub form: u8,
    pub at: usize,
}

impl Writer {
    pub fn begin(buffer: &mut [u8], kind: Kind, pst: u64) -> Answer<Writer> {
        let Some(head) = buffer.get_mut(..4) else {
            return refuse(BUFFER_FULL);
        };
        head.copy_from_slice(&[kind.class(), OBJECT_TYPE << 4, 0, 4]);
        Ok(Writer { kind, form: Form::of(pst).pst(), at: 4 })
    }

    /// The octets the object may still take, if the place is one.
    #[inline]
    fn room(self, buffer: &[u8]) -> Option<usize> {
        let end = buffer.len().min(MOST_OCTETS);
        if self.at < 4 || self.at % 4 != 0 {
            return None;
        }
        end.checked_sub(self.at)
    }

    pub fn add(self, buffer: &mut [u8], segment: &Segment) -> Answer<Writer> {
        match Form::of(self.form.into()) {
            Form::Srv6 => self.add_in::<Srv6>(buffer, segment),
            Form::Mpls => self.add_in::<Mpls>(buffer, segment),
        }
    }

    #[inline]
    fn add_in<L: Layout>(self, buffer: &mut [u8], segment: &Segment) -> Answer<Writer> {
        let size = L::size(segment, self.kind == Kind::Ero)?;
        if self.room(buffer).map_or(true, |room| room < size) {
            return refuse(BUFFER_FULL);
        }
        L::write(segment, &mut buffer[self.at..self.at + size]);
        Ok(Writer { at: self.at + size, ..self })
    }

    pub fn finish(self, buffer: &mut [u8]) -> Answer<Writer> {
        if self.room(buffer).is_none() {
            return refuse(BUFFER_FULL);
        }
        if self.at == 4 {
            return refuse(ROUTE_EMPTY);
        }
        buffer[2..4].copy_from_slice(&(self.at as u16).to_be_bytes());
        Ok(self)
    }
}
