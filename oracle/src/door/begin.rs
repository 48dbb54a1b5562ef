//! Start: a walk begun from a header that is handed over. The refusals are
//! document 01's. The walk itself is begun by the Rust: from byte 0 through
//! its own header parser where that accepts the header, else from a parser
//! that stands one byte before its end.

use crate::crc::{crc8, r13_locator_seed};
use crate::streaming::flat::FlatWalker;
use crate::streaming::{
    CHUNK_BYTES, END_SENTINEL, FlatHeaderParser, Locator, Phase, SourceIdentity, Step,
};

/// A header as document 01's Start takes it. Locators behind the count have
/// no say.
#[derive(Debug, Clone, Copy, PartialEq, Eq)]
pub struct Header {
    pub magic: [u8; 6],
    pub count: u8,
    pub locators: [Locator; 6],
    pub length: u64,
}

/// Why Start begins no walk: document 01's refusals 1 and 2.
#[derive(Debug, Clone, Copy, PartialEq, Eq)]
pub enum Refusal {
    LocatorCount(u8),
    LocatorRange(u8),
}

/// The first counted locator of this number, or offset 0 and size 0.
fn locator(header: &Header, number: u8) -> Locator {
    let counted = &header.locators[..usize::from(header.count)];
    let found = counted.iter().find(|l| l.number == number);
    found.copied().unwrap_or_default()
}

pub fn start_refusal(header: &Header) -> Option<Refusal> {
    if header.count > 6 {
        return Some(Refusal::LocatorCount(header.count));
    }
    for number in 0..3 {
        let l = locator(header, number);
        if u64::from(l.offset) + u64::from(l.size) > header.length {
            return Some(Refusal::LocatorRange(number));
        }
    }
    None
}

/// Start. Both ways to begin give the same walker where both are open (the
/// self-test holds them against each other).
pub fn begin(header: &Header) -> Result<FlatWalker, Refusal> {
    match start_refusal(header) {
        Some(refusal) => Err(refusal),
        None => Ok(through_parser(header).unwrap_or_else(|| by_hand(header))),
    }
}

/// The bytes of a file header that says what `header` says; the fields that
/// the walk never looks at are zero. The count must be at most 6.
pub fn header_bytes(header: &Header) -> Vec<u8> {
    let mut bytes = header.magic.to_vec();
    bytes.resize(21, 0);
    bytes.extend(u32::from(header.count).to_le_bytes());
    for l in &header.locators[..usize::from(header.count)] {
        bytes.push(l.number);
        bytes.extend(l.offset.to_le_bytes());
        bytes.extend(l.size.to_le_bytes());
    }
    let mask = r13_locator_seed(usize::from(header.count)).unwrap_or(0);
    let crc = crc8(0, &bytes) ^ mask;
    bytes.extend(crc.to_le_bytes());
    bytes.extend(END_SENTINEL);
    bytes
}

fn identity(length: u64) -> SourceIdentity {
    SourceIdentity {
        digest: [0; 32],
        length,
    }
}

/// Begin at byte 0: the Rust's own parser reads the header's bytes. `None`
/// where it refuses them.
pub fn through_parser(header: &Header) -> Option<FlatWalker> {
    let bytes = header_bytes(header);
    let mut walker = FlatWalker::new(identity(header.length));
    loop {
        let demand = walker.request().ok()??;
        let from = demand.offset as usize;
        let piece = &bytes[from..from + demand.len];
        if let Step::Header(_) = walker.feed(demand.offset, piece).ok()? {
            return Some(walker);
        }
    }
}

/// Begin from a parser that has every byte but the last one of its sentinel.
/// Feeding that byte makes the Rust itself enter the first section, and hold
/// the failure where it can't. Only the checks of the parser are left out,
/// and so that the source may be shorter than a header its length is set
/// last: entering a section does not look at it.
pub fn by_hand(header: &Header) -> FlatWalker {
    let whole = header_bytes(header);
    let last = whole.len() - 1;
    let mut bytes = [0; CHUNK_BYTES];
    bytes[..last].copy_from_slice(&whole[..last]);
    let mut parser = FlatHeaderParser::new(identity(u64::MAX));
    parser.bytes = bytes;
    parser.filled = last;
    parser.target = whole.len();
    parser.count = header.count;
    parser.index = header.count;
    parser.seen = seen(header);
    parser.phase = Phase::Sentinel;
    let mut walker = FlatWalker::from_header(parser);
    walker
        .feed(last as u64, &whole[last..])
        .expect("the last byte of the sentinel ends the header");
    walker.header.source.length = header.length;
    walker
}

/// The set of numbers up to 5 that occur, as the parser keeps it.
fn seen(header: &Header) -> u8 {
    let counted = &header.locators[..usize::from(header.count)];
    let known = counted.iter().filter(|l| l.number <= 5);
    known.fold(0, |seen, l| seen | 1 << l.number)
}
