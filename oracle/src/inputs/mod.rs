//! Generated inputs: a file is settled by its kind, the seed and its number.

mod coax;
mod crc;
mod damage;
mod drawing;
mod drive;
mod forge;
mod forge_header;
mod heads;
mod map;
mod mend;
mod plan;
mod record;
mod replay;
mod rng;
mod spoil_drawing;
mod spoil_plan;

use crate::Kind;
use crate::drive::{Case, walk};
use crate::streaming::door::{FlatWalker, Header, State};
use damage::{ENDINGS, aimed};
pub use map::chunk;
use plan::Scale;
pub use rng::Rng;

/// The input with this number, counted from 1.
pub fn input(kind: Kind, seed: u64, file: u64) -> Vec<u8> {
    let mut rng = Rng::for_file(seed, file);
    match kind {
        Kind::Crc => crc::input(&mut rng, file),
        Kind::Heads => heads::input(&mut rng),
        Kind::Drive | Kind::Once => drive::input(&mut rng),
        Kind::Replay => replay::input(&mut rng),
    }
}

/// How often a case of the wanted ending and length is tried for.
const TRIES: usize = 2000;

/// A case of the driver whose source has at most `most` bytes, cut into
/// single bytes. The cases with numbers 1, 2 and so on go round the endings.
pub fn small_case(seed: u64, number: u64, most: usize) -> Option<Case> {
    let mut rng = Rng::for_file(seed, number);
    let ending = ENDINGS[number as usize % ENDINGS.len()];
    for _ in 0..TRIES {
        let mut case = aimed(&mut rng, Scale::Small, ending).case;
        case.cuts = vec![1];
        if case.source.len() <= most && walk(&case).ending() == ending {
            return Some(case);
        }
    }
    None
}

/// A drawing's case without cuts, for the self-test.
pub fn drawn_case(seed: u64, number: u64) -> Case {
    drive::drawing(&mut Rng::for_file(seed, number)).case
}

/// A header and a state next to its bounds, at times with a field changed.
pub fn forged(rng: &mut Rng) -> (Header, State) {
    let header = forge_header::header(rng);
    let mut state = forge::state(rng, &header);
    for _ in 0..rng.below(3) {
        forge::disturb(&mut state, rng, &header);
    }
    (header, state)
}

/// A piece that the walk is likely to take.
pub fn some_bytes(rng: &mut Rng, header: &Header, walk: &FlatWalker, len: usize) -> Vec<u8> {
    coax::piece(rng, header, &State::of(walk), len)
}

/// The bytes of a chunk's first entry.
pub fn entry(handle: u64, location: u64) -> Vec<u8> {
    let mut bytes = map::handle_delta(handle, 0);
    bytes.extend(map::location_delta(0, location, 0, false));
    bytes
}
