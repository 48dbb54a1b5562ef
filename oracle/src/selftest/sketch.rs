//! The whole case of document 01, and variations of it: two empty sections
//! at 70 and 108, bytes at 146, then the map, then a tail.

use crate::drive::{Case, answer};
use crate::inputs::{chunk, entry};
use crate::streaming::door::Locator;
use crate::streaming::{CLASS_SENTINELS, HEADER_VARS_SENTINELS};

/// The object of the whole case: size 3, type 0, handle 5.
pub const OBJECT: [u8; 7] = [0x03, 0x00, 0x80, 0x41, 0x40, 0x75, 0x99];

pub fn locator(number: u8, offset: usize, size: usize) -> Locator {
    Locator {
        number,
        offset: offset as u32,
        size: size as u32,
    }
}

pub fn sketch(body: &[u8], map: &[u8], tail: &[u8]) -> Case {
    let empty = [0x00, 0x00, 0x00, 0x00, 0x3d, 0xc0];
    let mut source = vec![0; 70];
    for [from, to] in [HEADER_VARS_SENTINELS, CLASS_SENTINELS] {
        source.extend([&from[..], &empty, &to].concat());
    }
    source.extend([body, map, tail].concat());
    Case {
        magic: *b"AC1014",
        locators: vec![
            locator(0, 70, 38),
            locator(1, 108, 38),
            locator(2, 146 + body.len(), map.len()),
        ],
        cuts: Vec::new(),
        source,
    }
}

/// Document 01's whole case.
pub fn whole() -> Case {
    let map = [
        0x00, 0x05, 0x05, 0x92, 0x01, 0xbc, 0xbd, 0x00, 0x02, 0x01, 0xd0,
    ];
    sketch(&OBJECT, &map, &[])
}

/// A map of one chunk with these entries' bytes, and the final chunk.
pub fn one_chunk(entries: &[u8]) -> Vec<u8> {
    [chunk(entries), chunk(&[])].concat()
}

/// A map of one entry.
pub fn one_entry(handle: u64, location: usize) -> Vec<u8> {
    one_chunk(&entry(handle, location as u64))
}

pub fn printed(case: &Case) -> String {
    answer(&case.bytes())
}
