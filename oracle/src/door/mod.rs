//! Our way into the Rust: a child of `streaming`, so that it sees the fields
//! of the walker that the outside does not. It begins walks from a header
//! that is handed over, sets states field by field and asks `consistent`.
//! What document 01 adds to the Rust (the refusals of Start, `fit`, exact
//! sums in `consistent`) is here too; nothing of the Rust is changed.

mod begin;
mod checks;
mod state;

pub use super::flat::FlatWalker;
pub use super::records::RecordFormat;
pub use super::{Locator, ObjectRecord, Part, Request, SectionRecord, Step, StreamError};
pub use begin::{Header, Refusal, begin, by_hand, header_bytes, start_refusal, through_parser};
pub use checks::{consistent, exactly_consistent, fit, sums_wrap};
pub use state::{State, forge};

/// The type and the handle that a record's first bytes give.
pub fn prologue(head: &[u8], format: RecordFormat) -> Option<(u16, u64)> {
    super::records::prologue(head, format, 0)
}

/// The failure that a walk holds: every later call repeats it.
pub fn failure(walker: &FlatWalker) -> Option<StreamError> {
    walker.failure
}
