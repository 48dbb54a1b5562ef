//! Object records: the bits that a record's data opens with, the size words
//! and the CRC.

use super::rng::Rng;
use crate::crc::crc8;

pub const SEED: u16 = 0xc0c1;

/// Bits, the most significant first.
struct BitWriter {
    bytes: Vec<u8>,
    used: usize,
}

impl BitWriter {
    fn push(&mut self, value: u64, n: usize) {
        for place in (0..n).rev() {
            if self.used % 8 == 0 {
                self.bytes.push(0);
            }
            let bit = (value >> place) as u8 & 1;
            *self.bytes.last_mut().expect("a byte was pushed") |= bit << (7 - self.used % 8);
            self.used += 1;
        }
    }

    /// The bytes, the bits behind the last one pushed being anything.
    fn filled(mut self, rng: &mut Rng) -> Vec<u8> {
        while self.used % 8 != 0 {
            self.push(rng.next() & 1, 1);
        }
        self.bytes
    }
}

/// What a record's data opens with.
pub struct Opening {
    pub r2000: bool,
    /// The first two bits.
    pub code: u64,
    pub type_code: u64,
    pub handle: u64,
    /// The four bits of count; above 8 there is no handle.
    pub count: u64,
}

impl Opening {
    /// An opening that gives this handle; the handle may have leading zeros.
    pub fn random(rng: &mut Rng, r2000: bool, handle: u64) -> Self {
        let least = 8 - u64::from(handle.leading_zeros() / 8);
        let longer = rng.one_in(4);
        let count = if longer { 8 } else { least };
        Self {
            r2000,
            code: rng.next() % 4,
            type_code: rng.wide(16),
            handle,
            count,
        }
    }

    pub fn bytes(&self, rng: &mut Rng) -> Vec<u8> {
        let mut bits = BitWriter {
            bytes: Vec::new(),
            used: 0,
        };
        bits.push(self.code, 2);
        if self.code == 0 {
            bits.push(self.type_code & 0xff, 8);
            bits.push(self.type_code >> 8, 8);
        } else if self.code == 1 {
            bits.push(self.type_code & 0xff, 8);
        }
        if self.r2000 {
            bits.push(rng.next(), 32);
        }
        bits.push(rng.next(), 4);
        bits.push(self.count, 4);
        for place in (0..self.count.min(8)).rev() {
            bits.push(self.handle >> (8 * place), 8);
        }
        bits.filled(rng)
    }
}

/// A record of a drawing that is to be made.
#[derive(Clone)]
pub struct Record {
    pub handle: u64,
    pub data: Vec<u8>,
    pub two_words: bool,
    /// The section whose data the record lies in.
    pub inside: Option<usize>,
    /// Size words other than those of the data.
    pub false_words: Option<Vec<u8>>,
    /// What the stored CRC is changed by.
    pub crc_fault: u16,
}

impl Record {
    pub fn bytes(&self) -> Vec<u8> {
        let words = size_words(self.data.len() as u32, self.two_words);
        let mut bytes = self.false_words.clone().unwrap_or(words);
        bytes.extend(&self.data);
        let crc = crc8(SEED, &bytes) ^ self.crc_fault;
        bytes.extend(crc.to_le_bytes());
        bytes
    }
}

/// One word where it holds the size and two are not wanted.
pub fn size_words(size: u32, two: bool) -> Vec<u8> {
    let low = (size & 0x7fff) as u16;
    if size < 0x8000 && !two {
        return low.to_le_bytes().to_vec();
    }
    let high = (size >> 15) as u16;
    [(low | 0x8000).to_le_bytes(), high.to_le_bytes()].concat()
}
