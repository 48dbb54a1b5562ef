//! Inputs of the form `crc`. The first file asks for every entry.

use super::rng::Rng;
use crate::form::LIMIT;

fn push_checksum(bytes: &mut Vec<u8>, rng: &mut Rng, n: usize) {
    let any = rng.next() as u16;
    let seed = rng.pick(&[0, 0xc0c1, 0xffff, any, any]);
    bytes.push(rng.pick(b"CPL"));
    bytes.extend(u16::to_le_bytes(seed));
    bytes.extend((n as u32).to_le_bytes());
    let zeros = rng.one_in(8);
    bytes.extend(if zeros { vec![0; n] } else { rng.bytes(n) });
}

/// Lengths that matter to a path that goes by eight: each short one, those
/// around a multiple of eight, and long ones.
fn length(rng: &mut Rng) -> usize {
    match rng.below(8) {
        0..5 => rng.below(65),
        5 => (8 * rng.between(1, 64) + rng.below(3)).saturating_sub(1),
        6 => rng.below(2100),
        _ if rng.one_in(4) => rng.below(20_000),
        _ => rng.below(300),
    }
}

fn every_entry(bytes: &mut Vec<u8>) {
    for row in 0..8 {
        for place in 0..=255 {
            bytes.extend([b'E', row, place]);
        }
    }
}

pub fn input(rng: &mut Rng, file: u64) -> Vec<u8> {
    let mut bytes = Vec::new();
    if file == 1 {
        every_entry(&mut bytes);
        for n in 0..=64 {
            push_checksum(&mut bytes, rng, n);
        }
    }
    let full = rng.between(200, 30_000);
    while bytes.len() < full {
        let n = length(rng);
        push_checksum(&mut bytes, rng, n);
        bytes.extend([b'E', rng.byte() % 8, rng.byte()]);
    }
    if rng.one_in(25) {
        spoil(&mut bytes, rng);
    }
    bytes
}

/// Makes the form malformed.
fn spoil(bytes: &mut Vec<u8>, rng: &mut Rng) {
    match rng.below(6) {
        0 => bytes.push(rng.pick(b"EepcXl\n ")),
        1 => bytes.extend([b'E', 8 + rng.byte() % 240, rng.byte()]),
        2 => bytes.truncate(bytes.len() - 1),
        3 => bytes.extend([b'C', 0, 0, 255, 255, 255, 255]),
        4 => bytes.extend([b'P', 0, 0, 1, 0, 0, 0]),
        _ => bytes.extend([b'E', 0, 0].repeat(LIMIT / 3)),
    }
}
