//! The form `crc`: table entries and checksums, and `table`, all entries.

use crate::crc::crc8;
use crate::crc_opened;
use crate::form::{MALFORMED, Reader};

enum Op<'a> {
    Entry(u8, u8),
    Checksum(u16, &'a [u8]),
}

fn parse(input: &[u8]) -> Option<Vec<Op<'_>>> {
    let mut reader = Reader::new(input)?;
    let mut ops = Vec::new();
    while !reader.is_empty() {
        ops.push(match reader.u8()? {
            b'E' => {
                let row = reader.u8().filter(|&row| row < 8)?;
                Op::Entry(row, reader.u8()?)
            }
            b'C' | b'P' | b'L' => Op::Checksum(reader.u16()?, reader.counted()?),
            _ => return None,
        });
    }
    Some(ops)
}

/// The entry as the Rust's own private table has it.
fn entry(row: u8, place: u8) -> u16 {
    crc_opened::slices()[usize::from(row)][usize::from(place)]
}

/// The same entry by what it is for: the byte, then `row` zero bytes.
fn derived_entry(row: u8, place: u8) -> u16 {
    let mut bytes = [0; 8];
    bytes[0] = place;
    crc8(0, &bytes[..1 + usize::from(row)])
}

pub fn answer(input: &[u8]) -> String {
    let Some(ops) = parse(input) else {
        return MALFORMED.to_string();
    };
    let value = |op: &Op| match *op {
        Op::Entry(row, place) => entry(row, place),
        Op::Checksum(seed, bytes) => crc8(seed, bytes),
    };
    ops.iter().map(|op| format!("{}\n", value(op))).collect()
}

/// All 2,048 entries, row by row. The table that is read and the one that
/// is derived through `crc8` must be equal.
pub fn table() -> Result<String, String> {
    let mut lines = String::new();
    for row in 0..8 {
        for place in 0..=255 {
            let value = entry(row, place);
            if value != derived_entry(row, place) {
                return Err(format!("row {row} place {place}: table and crc8 differ"));
            }
            lines.push_str(&format!("{value}\n"));
        }
    }
    Ok(lines)
}
