//! Drawings that are made to end in a given way: document 01's number of the
//! ending is aimed at. Other faults on the way there are avoided by mending
//! CRCs, but an aim may be missed; what a drawing comes to is for the judge
//! to say.

use super::drawing::{Drawing, lay_out};
use super::plan::{Plan, Scale};
use super::rng::Rng;
use super::{spoil_drawing, spoil_plan};

/// Every ending that a whole walk can have.
pub const ENDINGS: [u8; 14] = [0, 2, 6, 7, 8, 9, 10, 11, 12, 13, 14, 15, 16, 17];

/// A drawing that is likely to end so.
pub fn aimed(rng: &mut Rng, scale: Scale, ending: u8) -> Drawing {
    let mut plan = Plan::random(rng, scale);
    if ending >= 12 && plan.records.is_empty() {
        plan.add_chunk(rng, 1);
    }
    let early = rng.one_in(2);
    match ending {
        6 => spoil_plan::stall(&mut plan, rng),
        12 if early => spoil_plan::entry(&mut plan, rng),
        13 if early => spoil_plan::target(&mut plan, rng),
        14 => spoil_plan::size(&mut plan, rng),
        15 => spoil_plan::record_crc(&mut plan, rng),
        16 => spoil_plan::opening(&mut plan, rng),
        17 => spoil_plan::handle(&mut plan, rng),
        _ => (),
    }
    let mut drawing = lay_out(plan, rng);
    match ending {
        2 => spoil_drawing::range(&mut drawing, rng),
        7 => spoil_drawing::section_size(&mut drawing, rng),
        8 => spoil_drawing::sentinel(&mut drawing, rng),
        9 => spoil_drawing::section_crc(&mut drawing, rng),
        10 => spoil_drawing::chunk(&mut drawing, rng),
        11 => spoil_drawing::map_crc(&mut drawing, rng),
        12 if !early => spoil_drawing::entry(&mut drawing, rng),
        13 if !early => spoil_drawing::span(&mut drawing, rng),
        _ => (),
    }
    drawing
}

/// Changes some bytes anywhere. With the CRCs mended, what they carry is
/// believed, and faults further on are reached.
pub fn scatter(drawing: &mut Drawing, rng: &mut Rng) {
    for _ in 0..rng.between(1, 3) {
        let at = rng.below(drawing.case.source.len());
        let bit = 1 << rng.below(8);
        drawing.case.source[at] ^= rng.pick(&[bit, bit, 0xff, 0x80]);
    }
    if !rng.one_in(4) {
        drawing.mend();
    }
}
