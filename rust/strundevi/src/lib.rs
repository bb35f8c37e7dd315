//! Boxes beside a tram line: read OPEN objects, judge and write SRv6 and MPLS routes, keep a board of paths that other boxes follow.
//!
//! Every answer comes from the proved library; this crate lends it slices and turns its numbers into `Result`s. A refusal is a number and a
//! place, and leaves everything as it was. Nothing is allocated, and no call needs more than 2,048 octets of stack.
//!
//! Octets are as on the wire: an object goes in by itself, from its class octet on, with no message header before it and nothing behind it.
//!
//! For x86-64 Linux, Rust 1.81 or later. Crate, C header and archive are of one version: a minor version may change the records, and nothing tests it, so build
//! all three together.
//!
//! ```
//! use strundevi::{judge, read_open, Form, Kind, Segment, Session, Setup, Writer, PST_SRV6};
//!
//! let open = [
//!     0x01, 0x10, 0x00, 0x20, 0x20, 0x1E, 0x78, 0x07, 0x00, 0x22, 0x00, 0x12, 0x00, 0x00, 0x00, 0x01, //
//!     0x03, 0x00, 0x00, 0x00, 0x00, 0x1B, 0x00, 0x06, 0x00, 0x00, 0x00, 0x00, 0x2C, 0x04, 0x00, 0x00,
//! ];
//! let at = Setup::FIRST_TWO;
//! let session = Session::agree(&read_open(at, &open), &read_open(at, &open));
//! assert!(session.agreed && session.limit == Some(4));
//!
//! let mut buffer = [0; 64];
//! let mut writer = Writer::begin(&mut buffer, Kind::Ero, Form::Srv6)?;
//! writer.add(&Segment::with_sid([0x20; 16], 1))?;
//! let route = writer.finish()?;
//! assert_eq!(judge(route, Kind::Ero, &session, PST_SRV6, &[])?.segments, 1);
//! # Ok::<(), strundevi::Refusal>(())
//! ```
#![no_std]
#![deny(unsafe_code)]

mod answer;
mod board;
mod form;
mod label;
mod nai;
mod open;
pub mod raw;
mod route;
mod segment;
mod writer;

pub use answer::{Counts, Number, PcErr, Refusal, Result};
pub use board::{Board, Change, Mark, Path, KEY_MOST, PLACES, PLACE_OCTETS, STORE_OCTETS, VERSION_MOST};
pub use form::{Form, PST_MPLS, PST_SRV6};
pub use label::{Label, MplsSid};
pub use nai::Nai;
pub use open::{read_open, Mpls, Open, OpenRefusal, OpenResult, Session, Setup};
pub use route::{judge, segment, segments, step, Kind, Segments, FIRST_PLACE};
pub use segment::{Segment, Strays};
pub use writer::{Writer, OBJECT_MOST};

/// The version of this crate, which is that of the header and of the archive.
pub const VERSION: &str = env!("CARGO_PKG_VERSION");
