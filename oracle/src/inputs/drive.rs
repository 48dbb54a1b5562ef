//! Inputs of the form `drive`.

use super::damage::{ENDINGS, aimed, scatter};
use super::drawing::{Drawing, lay_out};
use super::plan::{Plan, Scale};
use super::rng::Rng;
use crate::form::LIMIT;

fn cuts(rng: &mut Rng) -> Vec<u16> {
    let most = rng.pick(&[2, 5, 40, 65_535]);
    match rng.below(4) {
        0 => Vec::new(),
        1 => vec![1],
        _ => {
            let n = rng.pick(&[1, 2, 3, 7, 64]);
            (0..n).map(|_| rng.between(1, most) as u16).collect()
        }
    }
}

pub fn scale(rng: &mut Rng) -> Scale {
    match rng.below(20) {
        0 => Scale::Large,
        1..8 => Scale::Middle,
        _ => Scale::Small,
    }
}

/// A drawing as it should be, aimed at a fault, or with bytes changed.
pub fn drawing(rng: &mut Rng) -> Drawing {
    let scale = scale(rng);
    match rng.below(12) {
        0 if rng.one_in(10) => {
            let plan = Plan::full_chunk(rng);
            lay_out(plan, rng)
        }
        0..2 => aimed(rng, scale, 0),
        2..4 => {
            let mut drawing = aimed(rng, scale, 0);
            scatter(&mut drawing, rng);
            drawing
        }
        _ => {
            let ending = rng.pick(&ENDINGS);
            aimed(rng, scale, ending)
        }
    }
}

pub fn input(rng: &mut Rng) -> Vec<u8> {
    let mut case = drawing(rng).case;
    case.cuts = cuts(rng);
    while case.source.len() > case.room() {
        case = aimed(rng, Scale::Middle, 0).case;
    }
    let mut bytes = case.bytes();
    if rng.one_in(30) {
        spoil(&mut bytes, rng, case.locators.len());
    }
    bytes
}

/// Makes the form malformed, or at least another one.
fn spoil(bytes: &mut Vec<u8>, rng: &mut Rng, locators: usize) {
    let magic = 4 + 9 * locators;
    match rng.below(8) {
        0 => bytes.clear(),
        1 => bytes.push(rng.byte()),
        2 => bytes.truncate(rng.below(bytes.len())),
        3 => bytes[0] = rng.pick(&[7, 255]),
        4 => bytes[magic] = rng.pick(&[0, 5, 7]),
        5 => bytes[magic + 10] = 65,
        6 => bytes[magic + 10..magic + 16].copy_from_slice(&[1, 0, 0, 0, 0, 0]),
        _ => bytes.resize(LIMIT + 1, 0),
    }
}
