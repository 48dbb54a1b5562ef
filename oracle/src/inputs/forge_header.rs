//! Headers for forged states: units anywhere, sources of any length.

use super::rng::Rng;
use crate::streaming::door::{Header, Locator};

/// What the bounds of a state depend on.
pub struct Bounds {
    pub sections: [u64; 2],
    pub map_from: u64,
    pub map_end: u64,
    pub header_end: u64,
    pub length: u64,
    pub r2000: bool,
}

pub fn bounds(header: &Header) -> Bounds {
    let counted = &header.locators[..usize::from(header.count.min(6))];
    let unit = |number: u8| {
        let found = counted.iter().find(|l| l.number == number);
        found.copied().unwrap_or_default()
    };
    let map = unit(2);
    Bounds {
        sections: [unit(0).size.into(), unit(1).size.into()],
        map_from: map.offset.into(),
        map_end: u64::from(map.offset) + u64::from(map.size),
        header_end: 43 + 9 * u64::from(header.count),
        length: header.length,
        r2000: header.magic == *b"AC1015",
    }
}

/// A header whose units lie anywhere, mostly with room for everything.
pub fn header(rng: &mut Rng) -> Header {
    let length = match rng.below(8) {
        0..2 => rng.pick(&[u64::MAX, u64::MAX - 1, (1 << 63) + 1, (1 << 63) + 3]),
        2..4 => rng.pick(&[1 << 33, 1 << 34, 1 << 40]),
        _ => rng.between(8000, 60_000) as u64,
    };
    let mut locators = [Locator::default(); 6];
    for l in &mut locators {
        l.number = rng.pick(&[3, 4, 5, 200]);
        (l.offset, l.size) = (rng.next() as u32, rng.next() as u32);
    }
    for number in 0..3 {
        let size = unit_size(rng, number, length);
        let last = (length - u64::from(size)).min(u32::MAX.into()) as usize;
        let low = last.min(100);
        let plain = rng.between(low, last);
        let offset = rng.pick(&[plain, plain, plain, 0, low, last]);
        locators[usize::from(number)] = Locator {
            number,
            offset: offset as u32,
            size,
        };
    }
    Header {
        magic: rng.pick(&[*b"AC1014", *b"AC1015", *b"AC1012", *b"AC1099"]),
        count: rng.pick(&[3, 3, 3, 4, 5, 6, 6]),
        locators,
        length,
    }
}

fn unit_size(rng: &mut Rng, number: u8, length: u64) -> u32 {
    let most = length.min(u32::MAX.into()) as usize;
    let size = match (number, rng.below(8)) {
        (2, 0) => rng.between(0, 12),
        (2, 1) => most,
        (2, _) => rng.between(100, 5000),
        (_, 0) => rng.pick(&[37, 38, 39]),
        (_, 1) => most,
        _ => rng.between(38, 120),
    };
    size.min(most) as u32
}

/// Changes a header so that Start may refuse it, or a unit be missing.
pub fn disturb_header(header: &mut Header, rng: &mut Rng) {
    let n = rng.below(3);
    let reach = u64::from(header.locators[n].offset) + u64::from(header.locators[n].size);
    match rng.below(5) {
        0 => header.count = rng.pick(&[7, 8, 255]),
        1 => header.count = rng.pick(&[0, 1, 2]),
        2 => header.length = reach.saturating_sub(1),
        3 => header.length = reach,
        _ => header.locators[n].number = rng.pick(&[0, 1, 2, 3, 255]),
    }
}
