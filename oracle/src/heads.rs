//! The form `heads`: the type and the handle that a record's head gives.

use crate::form::{MALFORMED, Reader};
use crate::streaming::door::{RecordFormat, prologue};

fn parse(input: &[u8]) -> Option<Vec<(RecordFormat, &[u8])>> {
    let mut reader = Reader::new(input)?;
    let mut ops = Vec::new();
    while !reader.is_empty() {
        let format = match reader.u8()? {
            0 => RecordFormat::R14,
            1 => RecordFormat::R2000,
            _ => return None,
        };
        let n = reader.u8().filter(|&n| n <= 16)?;
        ops.push((format, reader.take(n.into())?));
    }
    Some(ops)
}

pub fn answer(input: &[u8]) -> String {
    let Some(ops) = parse(input) else {
        return MALFORMED.to_string();
    };
    let line = |&(format, head): &(RecordFormat, &[u8])| match prologue(head, format) {
        Some((type_code, handle)) => format!("{type_code} {handle}\n"),
        None => "-\n".to_string(),
    };
    ops.iter().map(line).collect()
}
