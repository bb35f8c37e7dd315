//! Writing a route: begun, given one segment at a time, finished, in a borrowed buffer.

use crate::answer::Result;
use crate::form::Form;
use crate::raw;
use crate::route::Kind;
use crate::segment::Segment;

/// The most octets of an object that is written.
pub const OBJECT_MOST: usize = 65_532;

/// A route being written. What is refused changes neither the buffer nor the writer.
#[derive(Debug)]
pub struct Writer<'a> {
    buffer: &'a mut [u8],
    kind: Kind,
    form: Form,
    at: usize,
}

impl<'a> Writer<'a> {
    /// A route of this form. Refused with 16 if the buffer has no 4 octets.
    #[inline]
    pub fn begin(buffer: &'a mut [u8], kind: Kind, form: Form) -> Result<Writer<'a>> {
        let r = raw::begin(buffer, raw::Writer { ero: kind.raw(), form: 0, at: 0 }, kind.raw(), form.pst());
        r.verdict.counts()?;
        Ok(Writer { buffer, kind: Kind::of(r.writer.ero), form: Form::of(r.writer.form.into()), at: r.writer.at })
    }

    /// Goes on at a place of an object begun before, its last `at`: at an earlier one a segment is overwritten. A place that cannot be one is refused by the calls
    /// that follow.
    pub fn resume(buffer: &'a mut [u8], kind: Kind, form: Form, at: usize) -> Writer<'a> {
        Writer { buffer, kind, form, at }
    }

    #[inline]
    fn raw(&self) -> raw::Writer {
        raw::Writer { ero: self.kind.raw(), form: self.form.pst() as u8, at: self.at }
    }

    #[inline]
    fn take(&mut self, r: raw::Written) -> Result<()> {
        self.at = r.writer.at;
        r.verdict.counts().map(|_| ())
    }

    /// Refused with 8, 9, 7, 11, 29, 30, 16. The segment is looked at by itself: an MPLS route that mixes labels, indices and segments without a SID, or has S 1 in
    /// an entry before the last, is written too, and a peer that checks refuses it with PCErr 10/20 or 10/4.
    #[inline]
    pub fn add(&mut self, segment: &Segment) -> Result<()> {
        let r = raw::add(self.buffer, self.raw(), segment.raw());
        self.take(r)
    }

    /// The object written so far, with its length. Refused with 16, 5.
    #[inline]
    pub fn finish(&mut self) -> Result<&[u8]> {
        let r = raw::finish(self.buffer, self.raw());
        self.take(r)?;
        Ok(&self.buffer[..self.at])
    }

    pub fn kind(&self) -> Kind {
        self.kind
    }

    pub fn form(&self) -> Form {
        self.form
    }

    /// Where the next segment goes.
    pub fn at(&self) -> usize {
        self.at
    }
}
