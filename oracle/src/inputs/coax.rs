//! Bytes that take a walk on: for what the walk in hand asks for next, bytes
//! that its rules are likely to accept. So commits are reached from forged
//! states too, which have no source behind them.

use super::record::{Opening, size_words};
use super::rng::Rng;
use crate::streaming::door::{Header, State};
use crate::streaming::{CLASS_SENTINELS, HEADER_VARS_SENTINELS};

/// Bytes for a demand of `len`, at most so many.
pub fn piece(rng: &mut Rng, header: &Header, s: &State, len: usize) -> Vec<u8> {
    let room = len.min(rng.pick(&[1, 2, 4, 16, 40]));
    let mut bytes = match s.stage {
        1 | 2 => section(rng, header, s),
        3 => chunk(rng, s),
        4 => vec![entry_byte(rng)],
        _ => object(rng, header, s),
    };
    let more = room.saturating_sub(bytes.len());
    bytes.extend(rng.bytes(more));
    bytes.truncate(room);
    bytes
}

/// The rest of a field that is to hold `bytes`, from its byte `taken` on.
fn rest(bytes: &[u8], taken: u32) -> Vec<u8> {
    bytes.get(taken as usize..).unwrap_or_default().to_vec()
}

fn section(rng: &mut Rng, header: &Header, s: &State) -> Vec<u8> {
    let part = s.stage - 1;
    let sentinels = [HEADER_VARS_SENTINELS, CLASS_SENTINELS][usize::from(part)];
    let counted = &header.locators[..usize::from(header.count)];
    let unit = counted.iter().find(|l| l.number == part);
    let size = unit.map_or(0, |l| l.size.wrapping_sub(38));
    let crc = 20 + u64::from(s.size);
    match u64::from(s.done) {
        0..16 => rest(&sentinels[0], s.done),
        16..20 => rest(&size.to_le_bytes(), s.done - 16),
        d if d < crc => rng.bytes(8),
        d if d < crc + 2 => rest(&s.crc.to_le_bytes(), (d - crc) as u32),
        d => rest(&sentinels[1], (d - crc - 2) as u32),
    }
}

fn chunk(rng: &mut Rng, s: &State) -> Vec<u8> {
    let size: u16 = rng.pick(&[2, 2, 3, 5, 9, 20, 2034]);
    if s.done < 2 {
        rest(&size.to_be_bytes(), s.done)
    } else if s.done < s.size {
        rng.bytes(8)
    } else {
        rest(&s.crc.to_be_bytes(), s.done - s.size)
    }
}

fn entry_byte(rng: &mut Rng) -> u8 {
    match rng.below(4) {
        0 => rng.pick(&[0, 1, 0x40, 0x41, 0x3f]),
        1 => rng.byte() | 0x80,
        2 => rng.byte() & 0x7f,
        _ => rng.byte(),
    }
}

fn object(rng: &mut Rng, header: &Header, s: &State) -> Vec<u8> {
    let begin = u32::from(s.ms_len);
    let end = begin + s.size;
    if begin == 0 {
        let small = rng.pick(&[1, 2, 3, 9, 14, 16, 17, 20]);
        let two = rng.one_in(4);
        return rest(&size_words(small, two), s.done);
    }
    if s.done < end {
        let r2000 = header.magic == *b"AC1015";
        let opening = Opening::random(rng, r2000, s.handle).bytes(rng);
        return if s.done == begin {
            opening
        } else {
            rng.bytes(8)
        };
    }
    rest(&s.crc.to_le_bytes(), s.done - end)
}
