//! CRCs made right again after damage, so that the walk believes what it
//! reads and faults further on are reached.

use super::drawing::{Drawing, put};
use super::record::SEED;
use crate::crc::crc8;

impl Drawing {
    /// Every CRC: those of records first, since a section may hold them.
    pub fn mend(&mut self) {
        for &at in &self.records {
            mend_record(&mut self.case.source, at);
        }
        self.mend_sections();
        for &at in &self.chunks {
            mend_chunk(&mut self.case.source, at);
        }
    }

    pub fn mend_sections(&mut self) {
        for unit in &self.units[..2] {
            let (at, size) = (unit.offset as usize, unit.size as usize);
            mend_crc(
                &mut self.case.source,
                at + 16,
                at + size - 18,
                u16::to_le_bytes,
            );
        }
    }
}

/// Writes the CRC of `from..to` behind it, where the source holds it.
fn mend_crc(source: &mut [u8], from: usize, to: usize, order: fn(u16) -> [u8; 2]) {
    if from <= to && to + 2 <= source.len() {
        let crc = crc8(SEED, &source[from..to]);
        put(source, to, &order(crc));
    }
}

fn mend_chunk(source: &mut [u8], at: usize) {
    if let Some(&[high, low]) = source.get(at..at + 2) {
        let size = usize::from(u16::from_be_bytes([high, low]));
        mend_crc(source, at, at + size, u16::to_be_bytes);
    }
}

fn mend_record(source: &mut [u8], at: usize) {
    let Some(&[a, b, c, d]) = source.get(at..at + 4) else {
        return;
    };
    let (low, high) = (u16::from_le_bytes([a, b]), u16::from_le_bytes([c, d]));
    let first = usize::from(low & 0x7fff);
    let (words, size) = if low < 0x8000 {
        (2, first)
    } else {
        (4, first | usize::from(high) << 15)
    };
    mend_crc(source, at, at + words + size, u16::to_le_bytes);
}
