//! The lines that the Rust's answers are printed as: document 01's numbers
//! for the refusals, each with its fields in document 01's order.

use crate::streaming::door::{Refusal, Step, StreamError};

/// An answer that carries document 01's number.
pub struct Numbered {
    pub number: u8,
    pub fields: Vec<u64>,
}

impl Numbered {
    pub fn line(&self) -> String {
        let mut line = format!("X {}", self.number);
        for field in &self.fields {
            line.push_str(&format!(" {field}"));
        }
        line
    }
}

fn numbered(number: u8, fields: &[u64]) -> Numbered {
    Numbered {
        number,
        fields: fields.to_vec(),
    }
}

/// Document 01's 19, which the Rust does not have.
pub fn bad_state() -> Numbered {
    numbered(19, &[])
}

pub fn start_refusal(refusal: Refusal) -> Numbered {
    match refusal {
        Refusal::LocatorCount(count) => numbered(1, &[count.into()]),
        Refusal::LocatorRange(number) => numbered(2, &[number.into()]),
    }
}

/// A refusal or fault of the walk.
pub fn refusal(error: StreamError) -> Numbered {
    use StreamError::*;
    match error {
        Finished => numbered(3, &[]),
        WrongOffset { expected, actual } => numbered(4, &[expected, actual]),
        InvalidFeed { maximum, actual } => numbered(5, &[maximum as u64, actual as u64]),
        Truncated { offset, needed } => numbered(6, &[offset, needed as u64]),
        SectionSize(part) => numbered(7, &[part.into()]),
        SectionSentinel(part) => numbered(8, &[part.into()]),
        SectionCrc {
            part,
            expected,
            actual,
        } => numbered(9, &[part.into(), expected.into(), actual.into()]),
        MapChunk(chunk) => numbered(10, &[chunk]),
        MapCrc {
            offset,
            expected,
            actual,
        } => numbered(11, &[offset, expected.into(), actual.into()]),
        MapEntry(place) => numbered(12, &[place]),
        ObjectRange { handle, offset } => numbered(13, &[handle, offset]),
        ObjectSize(handle) => numbered(14, &[handle]),
        ObjectCrc {
            handle,
            expected,
            actual,
        } => numbered(15, &[handle, expected.into(), actual.into()]),
        ObjectHeader(handle) => numbered(16, &[handle]),
        ObjectHandle { map, record } => numbered(17, &[map, record]),
        other => panic!("the walk behind the header has no such answer: {other:?}"),
    }
}

pub fn step_line(step: &Step) -> String {
    match step {
        Step::Framing => "F".to_string(),
        Step::Payload(part) => format!("P {}", *part as u8),
        Step::Section(s) => format!("S {} {} {}", s.part as u8, s.data_offset, s.size),
        Step::Object(o) => format!("O {} {} {} {}", o.handle, o.offset, o.size, o.type_code),
        Step::Finished => "Z".to_string(),
        Step::Header(_) => panic!("the walk begins behind the header"),
    }
}
