//! Makes the example drawings in the driver's form, on standard output: `make bracket` or `make large`.
//! A drawing follows from its name alone: the numbers come from a generator with a fixed seed.

use std::io::Write;

/// Numbers that look like chance and are the same each time.
struct Dice(u64);

impl Dice {
    fn roll(&mut self, below: u64) -> u64 {
        self.0 = self.0.wrapping_mul(6364136223846793005).wrapping_add(1442695040888963407);
        (self.0 >> 33) % below
    }
}

/// Both sections have data; each chunk holds so many objects, with so many bytes of data at most.
struct Plan {
    seed: u64,
    sections: [usize; 2],
    chunks: Vec<usize>,
    most: u64,
}

/// What the map says of an object.
struct Entry {
    handle: u64,
    location: u64,
}

fn plan(name: &str) -> Option<Plan> {
    match name {
        "bracket" => Some(Plan { seed: 2000, sections: [60, 24], chunks: vec![26, 25], most: 40 }),
        "large" => Some(Plan { seed: 50, sections: [600, 1400], chunks: vec![240, 240], most: 180 }),
        _ => None,
    }
}

/// The checksum of the format, bit by bit: polynomial 0xA001, seed 0xC0C1.
fn checksum(bytes: &[u8]) -> u16 {
    bytes.iter().fold(0xC0C1, |crc, &byte| {
        (0..8).fold(crc ^ byte as u16, |c, _| if c & 1 == 1 { c >> 1 ^ 0xA001 } else { c >> 1 })
    })
}

/// Bits, the most significant of each byte first.
#[derive(Default)]
struct Bits(Vec<bool>);

impl Bits {
    fn put(&mut self, number: u64, count: u32) {
        self.0.extend((0..count).rev().map(|i| number >> i & 1 == 1));
    }

    fn bytes(&self) -> Vec<u8> {
        self.0.chunks(8).map(|c| c.iter().enumerate().fold(0, |b, (i, &bit)| b | (bit as u8) << (7 - i))).collect()
    }
}

/// The data of an R2000 object: type, size in bits, handle, and what follows.
fn object(dice: &mut Dice, handle: u64, most: u64) -> Vec<u8> {
    let mut bits = Bits::default();
    match dice.roll(8) {
        0 => {
            bits.put(0, 2);
            let kind = 500 + dice.roll(20);
            bits.put(kind & 0xFF, 8);
            bits.put(kind >> 8, 8);
        }
        1 => bits.put(2, 2),
        2 => bits.put(3, 2),
        _ => {
            bits.put(1, 2);
            bits.put([1, 7, 17, 18, 19, 31][dice.roll(6) as usize], 8);
        }
    }
    bits.put(0, 32);
    let bytes = handle.to_be_bytes();
    let used = &bytes[handle.leading_zeros() as usize / 8..];
    bits.put(0, 4);
    bits.put(used.len() as u64, 4);
    used.iter().for_each(|&b| bits.put(b as u64, 8));
    let mut data = bits.bytes();
    data.extend((0..dice.roll(most)).map(|_| dice.roll(256) as u8));
    data
}

/// A size of one word, the data, and the checksum over both.
fn framed(data: &[u8]) -> Vec<u8> {
    let mut bytes = (data.len() as u16).to_le_bytes().to_vec();
    bytes.extend(data);
    bytes.extend(checksum(&bytes).to_le_bytes());
    bytes
}

const SENTINELS: [[u8; 16]; 2] = [
    [0xCF, 0x7B, 0x1F, 0x23, 0xFD, 0xDE, 0x38, 0xA9, 0x5F, 0x7C, 0x68, 0xB8, 0x4E, 0x6D, 0x33, 0x5F],
    [0x8D, 0xA1, 0xC4, 0xB8, 0xC4, 0xA9, 0xF8, 0xC5, 0xC0, 0xDC, 0xF4, 0x5F, 0xE7, 0xCF, 0xB6, 0x8A],
];

/// A section: an end sentinel is its start sentinel with every bit turned.
fn section(dice: &mut Dice, part: usize, size: usize) -> Vec<u8> {
    let mut checked = (size as u32).to_le_bytes().to_vec();
    checked.extend((0..size).map(|_| dice.roll(256) as u8));
    let mut bytes = SENTINELS[part].to_vec();
    bytes.extend(&checked);
    bytes.extend(checksum(&checked).to_le_bytes());
    bytes.extend(SENTINELS[part].map(|b| !b));
    bytes
}

/// A delta of the map in groups of seven bits, the lowest first; the last group of a signed one has six and the sign.
fn delta(out: &mut Vec<u8>, mut n: u64, last: u64, sign: u8) {
    while n >= last {
        out.push(n as u8 | 0x80);
        n >>= 7;
    }
    out.push(n as u8 | sign);
}

/// A chunk of the map: handle and location start at 0 in each.
fn chunk(entries: &[Entry]) -> Vec<u8> {
    let mut bytes = vec![0, 0];
    let mut before = Entry { handle: 0, location: 0 };
    for entry in entries {
        delta(&mut bytes, entry.handle - before.handle, 0x80, 0);
        let back = entry.location < before.location;
        delta(&mut bytes, entry.location.abs_diff(before.location), 0x40, if back { 0x40 } else { 0 });
        before = Entry { ..*entry };
    }
    let size = bytes.len() as u16;
    bytes[..2].copy_from_slice(&size.to_be_bytes());
    bytes.extend(checksum(&bytes).to_be_bytes());
    bytes
}

/// The handles of each chunk rise; the first of a later chunk is the last of the one before, named anew.
fn handles(dice: &mut Dice, plan: &Plan) -> Vec<Vec<u64>> {
    let mut handle = 30;
    let mut next = |i: usize| {
        if i > 0 {
            handle += 1 + dice.roll(9);
        }
        handle
    };
    plan.chunks.iter().map(|&count| (0..count).map(&mut next).collect()).collect()
}

/// The objects lie in the source with those of the last chunk first: the map's order is not the source's.
fn objects(dice: &mut Dice, plan: &Plan, source: &mut Vec<u8>) -> Vec<Vec<Entry>> {
    let mut chunks = Vec::new();
    for handles in handles(dice, plan).iter().rev() {
        let mut entries = Vec::new();
        for &handle in handles {
            entries.push(Entry { handle, location: source.len() as u64 });
            source.extend(framed(&object(dice, handle, plan.most)));
        }
        chunks.insert(0, entries);
    }
    chunks
}

/// A place in the source: locator number, offset, size.
type Locator = (u8, usize, usize);

fn drawing(plan: &Plan) -> (Vec<Locator>, Vec<u8>) {
    let mut dice = Dice(plan.seed);
    let mut source = vec![0; 43 + 9 * 3];
    let mut locators = Vec::new();
    for (part, &size) in plan.sections.iter().enumerate() {
        let bytes = section(&mut dice, part, size);
        locators.push((part as u8, source.len(), bytes.len()));
        source.extend(bytes);
    }
    let chunks = objects(&mut dice, plan, &mut source);
    let start = source.len();
    chunks.iter().for_each(|entries| source.extend(chunk(entries)));
    source.extend(chunk(&[]));
    locators.push((2, start, source.len() - start));
    (locators, source)
}

/// The driver's form: locators, magic, cuts (none), source, each after its count.
fn form(locators: &[Locator], source: &[u8]) -> Vec<u8> {
    let mut bytes = (locators.len() as u32).to_le_bytes().to_vec();
    for &(number, offset, size) in locators {
        bytes.push(number);
        bytes.extend((offset as u32).to_le_bytes());
        bytes.extend((size as u32).to_le_bytes());
    }
    bytes.extend(6u32.to_le_bytes());
    bytes.extend(b"AC1015");
    bytes.extend(0u32.to_le_bytes());
    bytes.extend((source.len() as u32).to_le_bytes());
    bytes.extend(source);
    bytes
}

fn main() {
    let name = std::env::args().nth(1).unwrap_or_default();
    let Some(plan) = plan(&name) else {
        eprintln!("usage: make bracket|large");
        std::process::exit(2);
    };
    let (locators, source) = drawing(&plan);
    std::io::stdout().write_all(&form(&locators, &source)).expect("standard output takes the drawing");
}
