//! The rules of the route reader and the path board in plain Rust.
//!
//! It is written from the paper alone and shares nothing with the proved code, so that an answer both give is an answer the paper
//! gives. It is the yardstick of the differential tests and of the benchmark.

pub mod answer;
pub mod board;
pub mod form;
pub mod mpls;
pub mod open;
pub mod route;
pub mod segment;
pub mod session;
pub mod srv6;
pub mod writer;

pub use answer::{Answer, Refusal};
pub use board::{Board, Change, PLACES, PLACE_OCTETS, STORE_OCTETS};
pub use form::{Form, PST_MPLS, PST_SRV6};
pub use open::{read_open, Fault, Mpls, Open, OpenAnswer, Setup};
pub use route::{judge, segment, step, Kind};
pub use segment::{Counts, Segment, Strays};
pub use session::Session;
pub use writer::Writer;
