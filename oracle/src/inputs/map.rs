//! The object map: the deltas of an entry, and chunks.

use super::record::SEED;
use crate::crc::crc8;

/// Where an entry leads.
#[derive(Clone, Copy, PartialEq, Eq)]
pub enum Target {
    Record(usize),
    /// The bytes that end the source.
    Tail,
    Place(u64),
    /// So many bytes behind the map's first.
    InMap(u64),
    /// So many bytes before the source's end.
    FromEnd(u64),
}

#[derive(Clone, Copy)]
pub struct Entry {
    /// What the handle grows by.
    pub step: u64,
    pub target: Target,
    /// The least number of bytes for the two deltas.
    pub widths: [usize; 2],
    /// A location delta of zero with the sign set.
    pub negative_zero: bool,
}

/// Groups of 7 bits, the lowest first, at least `width` of them.
pub fn handle_delta(value: u64, width: usize) -> Vec<u8> {
    let mut bytes = Vec::new();
    let mut rest = value;
    while rest > 0x7f || bytes.len() + 1 < width {
        bytes.push(rest as u8 | 0x80);
        rest >>= 7;
    }
    bytes.push(rest as u8);
    bytes
}

/// The same with a sign and 6 bits in the last byte.
pub fn location_delta(from: u64, to: u64, width: usize, negative_zero: bool) -> Vec<u8> {
    let negative = to < from || (to == from && negative_zero);
    let mut bytes = Vec::new();
    let mut rest = from.abs_diff(to);
    while rest > 0x3f || bytes.len() + 1 < width {
        bytes.push(rest as u8 | 0x80);
        rest >>= 7;
    }
    bytes.push(rest as u8 | u8::from(negative) << 6);
    bytes
}

/// The bytes of a chunk's entries; `place` says where a target is.
pub fn entry_bytes(entries: &[Entry], place: impl Fn(Target) -> u64) -> Vec<u8> {
    let mut bytes = Vec::new();
    let mut from = 0;
    for entry in entries {
        let to = place(entry.target);
        bytes.extend(handle_delta(entry.step, entry.widths[0]));
        bytes.extend(location_delta(
            from,
            to,
            entry.widths[1],
            entry.negative_zero,
        ));
        from = to;
    }
    bytes
}

/// A chunk around its entries' bytes; with none it is the final one.
pub fn chunk(entries: &[u8]) -> Vec<u8> {
    let size = 2 + entries.len() as u16;
    let mut bytes = size.to_be_bytes().to_vec();
    bytes.extend(entries);
    let crc = crc8(SEED, &bytes);
    bytes.extend(crc.to_be_bytes());
    bytes
}
