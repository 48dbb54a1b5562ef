//! Inputs of the form `heads`.

use super::record::Opening;
use super::rng::Rng;
use crate::form::LIMIT;

/// Sixteen bytes that open in a given way, whatever follows.
fn structured(rng: &mut Rng, r2000: bool) -> Vec<u8> {
    let bits = rng.pick(&[64, 64, 8, 16, 40]);
    let handle = rng.wide(bits);
    let mut opening = Opening::random(rng, r2000, handle);
    if rng.one_in(2) {
        opening.count = rng.next() % 16;
    }
    let mut head = opening.bytes(rng);
    head.extend(rng.bytes(16));
    head.truncate(16);
    head
}

/// One head at each length, so that its bits run out at each place.
fn push_each_length(bytes: &mut Vec<u8>, rng: &mut Rng) {
    let r2000 = rng.one_in(2);
    let head = if rng.one_in(4) {
        rng.bytes(16)
    } else {
        structured(rng, r2000)
    };
    for n in 0..=16u8 {
        bytes.extend([u8::from(r2000), n]);
        bytes.extend(&head[..usize::from(n)]);
    }
}

pub fn input(rng: &mut Rng) -> Vec<u8> {
    let mut bytes = Vec::new();
    let full = rng.between(100, 8000);
    while bytes.len() < full {
        push_each_length(&mut bytes, rng);
    }
    if rng.one_in(25) {
        spoil(&mut bytes, rng);
    }
    bytes
}

/// Makes the form malformed.
fn spoil(bytes: &mut Vec<u8>, rng: &mut Rng) {
    match rng.below(5) {
        0 => bytes.push(rng.pick(&[0, 1, 2, 255])),
        1 => bytes.extend([2, 0]),
        2 => {
            bytes.extend([0, 17]);
            bytes.extend([0; 17]);
        }
        3 => bytes.truncate(bytes.len() - 1),
        _ => bytes.extend([0, 0].repeat(LIMIT / 2)),
    }
}
