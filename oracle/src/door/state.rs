//! The fields of a walk, by themselves: read off a walker, or set on one.

use super::begin::{Header, by_hand, start_refusal, through_parser};
use crate::streaming::flat::{FlatWalker, MapCursor, Stage};

/// A failure-free state. `stage` counts as document CALLS does, 1 to 6; the
/// fields mean what they mean in flat.rs, `map_field` is the cursor's.
#[derive(Debug, Clone, Copy, PartialEq, Eq)]
pub struct State {
    pub stage: u8,
    pub done: u32,
    pub size: u32,
    pub crc: u16,
    pub field: [u8; 4],
    pub head: [u8; 16],
    pub object: u64,
    pub ms_len: u8,
    pub words: u8,
    pub chunk: u64,
    pub len: u32,
    pub at: u64,
    pub handle: u64,
    pub loc: u64,
    pub mc: u64,
    pub shift: u8,
    pub map_field: u8,
}

const STAGES: [Stage; 6] = [
    Stage::Vars,
    Stage::Classes,
    Stage::Chunk,
    Stage::Entry,
    Stage::Object,
    Stage::Done,
];

impl State {
    /// What a walk's fields hold now. The walk must be past its header.
    pub fn of(walker: &FlatWalker) -> State {
        let map = walker.map;
        State {
            stage: walker.stage as u8,
            done: walker.done,
            size: walker.size,
            crc: walker.crc,
            field: walker.field,
            head: walker.head,
            object: walker.object,
            ms_len: walker.ms_len,
            words: walker.words,
            chunk: map.chunk,
            len: map.len,
            at: map.at,
            handle: map.handle,
            loc: map.loc,
            mc: map.mc,
            shift: map.shift,
            map_field: map.field,
        }
    }

    fn cursor(&self) -> MapCursor {
        MapCursor {
            chunk: self.chunk,
            len: self.len,
            at: self.at,
            handle: self.handle,
            loc: self.loc,
            mc: self.mc,
            shift: self.shift,
            field: self.map_field,
        }
    }
}

/// A walker with this header that holds just this state and no failure.
/// `None` for a header that Start refuses: the Rust has no walker for it
/// that would not go out of its bounds. The stage must be 1 to 6.
pub fn forge(header: &Header, state: &State) -> Option<FlatWalker> {
    if start_refusal(header).is_some() {
        return None;
    }
    let mut walker = through_parser(header).unwrap_or_else(|| by_hand(header));
    walker.stage = STAGES[usize::from(state.stage) - 1];
    walker.done = state.done;
    walker.size = state.size;
    walker.crc = state.crc;
    walker.field = state.field;
    walker.head = state.head;
    walker.object = state.object;
    walker.ms_len = state.ms_len;
    walker.words = state.words;
    walker.map = state.cursor();
    walker.failure = None;
    Some(walker)
}
