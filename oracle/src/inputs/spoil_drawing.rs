//! Faults that are put into a drawing's bytes and locators: those of ranges,
//! sections, chunks and spans.

use super::drawing::Drawing;
use super::record::size_words;
use super::rng::Rng;
use crate::streaming::door::Locator;

/// The place of the locator that counts for this number.
fn locator(drawing: &mut Drawing, number: u8) -> &mut Locator {
    let mut list = drawing.case.locators.iter_mut();
    list.find(|l| l.number == number)
        .expect("a drawing has its three units")
}

/// Takes a locator away, or its number. Another of its number then counts.
fn lose_locator(drawing: &mut Drawing, rng: &mut Rng, number: u8) {
    let away = drawing
        .case
        .locators
        .iter()
        .position(|l| l.number == number);
    let away = away.expect("a drawing has its three units");
    if rng.one_in(2) {
        drawing.case.locators.remove(away);
    } else {
        drawing.case.locators[away].number = rng.pick(&[3, 6, 255]);
    }
}

/// Makes a locator's size larger or smaller. The source grows with it, so
/// that it is not the range that is at fault.
fn resize(drawing: &mut Drawing, rng: &mut Rng, number: u8) {
    let by = rng.between(1, 4) as u32;
    let more = rng.one_in(2);
    drawing.case.source.extend(rng.bytes(4));
    let l = locator(drawing, number);
    l.size = if more { l.size + by } else { l.size - by };
}

fn flip(drawing: &mut Drawing, rng: &mut Rng, at: usize) {
    drawing.case.source[at] ^= rng.pick(&[1, 0x80, 0xff, 0x10]);
}

/// 2: a unit reaches past the source's end.
pub fn range(drawing: &mut Drawing, rng: &mut Rng) {
    let length = drawing.case.source.len() as u32;
    let number = rng.below(3);
    let past = rng.pick(&[1, 1, 2, 1000]);
    let end = drawing.units[number].offset + drawing.units[number].size;
    let l = locator(drawing, number as u8);
    match rng.below(4) {
        0 => l.size = length - l.offset + past,
        1 => l.offset = length.saturating_sub(l.size) + past,
        2 => (l.offset, l.size) = (u32::MAX, u32::MAX),
        _ => drawing.case.source.truncate(end as usize - 1),
    }
}

/// 7.
pub fn section_size(drawing: &mut Drawing, rng: &mut Rng) {
    let part = rng.below(2);
    let at = drawing.units[part].offset as usize;
    match rng.below(5) {
        0 => locator(drawing, part as u8).size = rng.below(38) as u32,
        1 => locator(drawing, part as u8).size = 37,
        2 => lose_locator(drawing, rng, part as u8),
        3 => resize(drawing, rng, part as u8),
        _ => {
            let byte = rng.below(4);
            flip(drawing, rng, at + 16 + byte);
        }
    }
}

/// 8: in the first or the last 16 bytes of a section.
pub fn sentinel(drawing: &mut Drawing, rng: &mut Rng) {
    let unit = drawing.units[rng.below(2)];
    let end = (unit.offset + unit.size) as usize;
    let byte = rng.below(16);
    let at = rng.pick(&[unit.offset as usize + byte, end - 16 + byte]);
    flip(drawing, rng, at);
}

/// 9: in the data, or in the CRC itself.
pub fn section_crc(drawing: &mut Drawing, rng: &mut Rng) {
    let unit = drawing.units[rng.below(2)];
    let behind = rng.between(20, unit.size as usize - 17);
    let at = unit.offset as usize + behind;
    flip(drawing, rng, at);
}

/// 10: the map or a chunk has a wrong size, or the map ends at a wrong place.
pub fn chunk(drawing: &mut Drawing, rng: &mut Rng) {
    let number = rng.below(drawing.chunks.len());
    let at = drawing.chunks[number];
    let map_end = drawing.units[2].offset + drawing.units[2].size;
    let to_end = (map_end - at as u32) as u16;
    let size = rng.pick(&[0, 1, 2, 2034, 2035, 0xffff, to_end, to_end - 1, to_end - 2]);
    match rng.below(6) {
        0 => locator(drawing, 2).size = rng.below(4) as u32,
        1 => locator(drawing, 2).size -= 4,
        2 => lose_locator(drawing, rng, 2),
        3 => resize(drawing, rng, 2),
        _ => {
            drawing.case.source[at..at + 2].copy_from_slice(&u16::to_be_bytes(size));
            drawing.mend();
        }
    }
}

/// 11: a byte of a chunk, or its CRC the other way round.
pub fn map_crc(drawing: &mut Drawing, rng: &mut Rng) {
    let number = rng.below(drawing.chunks.len());
    let at = drawing.chunks[number];
    let crc_at = entries_end(drawing, number);
    if rng.one_in(3) {
        drawing.case.source.swap(crc_at, crc_at + 1);
    } else {
        let byte = rng.between(at + 2, crc_at + 1);
        flip(drawing, rng, byte);
    }
}

/// Where a chunk's CRC stands.
fn entries_end(drawing: &Drawing, number: usize) -> usize {
    let at = drawing.chunks[number];
    let source = &drawing.case.source;
    at + usize::from(u16::from_be_bytes([source[at], source[at + 1]]))
}

/// 12: a first location below 0, or a chunk whose last byte announces more.
/// The last chunk of a drawing has no entries, one before it must have.
pub fn entry(drawing: &mut Drawing, rng: &mut Rng) {
    let number = rng.below(drawing.chunks.len() - 1);
    if rng.one_in(2) {
        let last = entries_end(drawing, number) - 1;
        drawing.case.source[last] |= 0x80;
    } else {
        let source = &mut drawing.case.source;
        let last_of = |from: usize| (from..).find(|&at| source[at] < 0x80).expect("a last byte");
        let handle = last_of(drawing.chunks[number] + 2);
        let location = last_of(handle + 1);
        source[location] |= 0x40;
    }
    drawing.mend();
}

/// 13: a record whose size takes it past the source's end or into the map.
pub fn span(drawing: &mut Drawing, rng: &mut Rng) {
    let at = drawing.records[rng.below(drawing.records.len())];
    let two = drawing.case.source[at + 1] >= 0x80;
    let words = if two { 4 } else { 2 };
    let map = drawing.units[2].offset as usize;
    let length = drawing.case.source.len();
    let wall = if at < map { map } else { length };
    let past = rng.pick(&[1, 1, 2, 7]);
    let size = (wall + past).saturating_sub(at + words + 2);
    let bytes = size_words(size as u32, two);
    if bytes.len() == words {
        drawing.case.source[at..at + words].copy_from_slice(&bytes);
        drawing.mend_sections();
    }
}
