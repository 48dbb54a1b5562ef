//! `fit` and `consistent` of document 01, "State checks". `fit` is ours; the
//! Rust has no such function. `consistent` is the Rust's, but where its sums
//! would pass 64 bits on a forged state, the exact answer is worked out here.
//! Written from document 01 and from the rules for each unit, in u128, so
//! that no sum wraps.

use super::state::State;
use crate::streaming::flat::FlatWalker;

/// What the checks look at: the state, and of the header what they need.
struct View {
    state: State,
    /// Sizes of locators 0 and 1.
    sections: [u128; 2],
    map_from: u128,
    map_end: u128,
    header_end: u128,
    length: u128,
    shift_limit: u8,
    size_limited: bool,
}

/// The Rust's own answer where its sums hold, else the exact one.
pub fn consistent(walker: &FlatWalker) -> bool {
    if sums_wrap(walker) {
        exactly_consistent(walker)
    } else {
        walker.consistent()
    }
}

/// Would a sum in the Rust's `consistent` pass 64 bits? (Said of each of its
/// sums, even where a test before it would leave it unformed.)
pub fn sums_wrap(walker: &FlatWalker) -> bool {
    let chunk = u128::from(walker.map.chunk);
    let size = u128::from(walker.size);
    let sums = [
        chunk + 4,
        chunk + u128::from(walker.map.len) + 2,
        chunk + size + 2,
        u128::from(walker.object) + u128::from(walker.ms_len) + size + 2,
    ];
    sums.iter().any(|&sum| sum > u128::from(u64::MAX))
}

/// `consistent` by document 01, with exact sums.
pub fn exactly_consistent(walker: &FlatWalker) -> bool {
    walker.failure.is_none() && view(walker, 56, false).holds()
}

/// `fit`: the same without the failure test, with one more group of a delta
/// and, in an object, with bounds on the size by the number of words.
pub fn fit(walker: &FlatWalker) -> bool {
    view(walker, 63, true).holds()
}

fn view(walker: &FlatWalker, shift_limit: u8, size_limited: bool) -> View {
    let map = walker.locator(2);
    View {
        state: State::of(walker),
        sections: [0, 1].map(|n| u128::from(walker.locator(n).size)),
        map_from: u128::from(map.offset),
        map_end: u128::from(map.offset) + u128::from(map.size),
        header_end: 43 + 9 * u128::from(walker.header.count),
        length: u128::from(walker.header.source.length),
        shift_limit,
        size_limited,
    }
}

impl View {
    fn holds(&self) -> bool {
        match self.state.stage {
            1 => self.section(self.sections[0]),
            2 => self.section(self.sections[1]),
            3 => self.chunk(),
            4 => self.entry(),
            5 => self.object(),
            _ => true,
        }
    }

    /// Nothing of an object is held outside the visits to the map's entries.
    fn no_object(&self) -> bool {
        let s = &self.state;
        s.object == 0 && s.ms_len == 0 && s.words == 0 && s.head == [0; 16]
    }

    /// Every field of the cursor but `chunk` is 0.
    fn no_entry(&self) -> bool {
        let s = &self.state;
        let wide = [s.at, s.handle, s.loc, s.mc];
        wide == [0; 4] && s.len == 0 && s.shift == 0 && s.map_field == 0
    }

    fn section(&self, total: u128) -> bool {
        let (done, size) = (u128::from(self.state.done), u128::from(self.state.size));
        let size_ok = if done < 20 {
            size == 0
        } else {
            38 + size == total
        };
        self.no_object()
            && self.no_entry()
            && self.state.chunk == 0
            && total >= 38
            && done < total
            && size_ok
    }

    fn chunk(&self) -> bool {
        let (done, size) = (u128::from(self.state.done), u128::from(self.state.size));
        let chunk = u128::from(self.state.chunk);
        let size_ok = if done < 2 {
            size == 0
        } else {
            (2..=2034).contains(&size) && chunk + size + 2 <= self.map_end && done < size + 2
        };
        self.no_object()
            && self.no_entry()
            && chunk >= self.map_from
            && chunk + 4 <= self.map_end
            && size_ok
    }

    /// The chunk whose entries are visited lies in the map, with its CRC.
    fn visited_chunk(&self) -> bool {
        let (chunk, len) = (u128::from(self.state.chunk), u128::from(self.state.len));
        (3..=2034).contains(&len) && chunk >= self.map_from && chunk + len + 2 <= self.map_end
    }

    fn entry(&self) -> bool {
        let s = &self.state;
        let (chunk, at) = (u128::from(s.chunk), u128::from(s.at));
        self.visited_chunk()
            && at >= chunk + 2
            && at < chunk + u128::from(s.len)
            && s.map_field <= 1
            && s.shift <= self.shift_limit
            && s.shift % 7 == 0
            && s.loc < 1 << 63
    }

    fn object(&self) -> bool {
        let s = &self.state;
        let (chunk, at) = (u128::from(s.chunk), u128::from(s.at));
        self.visited_chunk()
            && at > chunk + 2
            && at <= chunk + u128::from(s.len)
            && s.map_field == 0
            && s.shift == 0
            && s.mc == 0
            && s.object == s.loc
            && self.object_entered()
            && self.size_within()
            && if s.ms_len == 0 {
                self.words_open()
            } else {
                self.body_open()
            }
    }

    /// What entering an object at this place asks for.
    fn object_entered(&self) -> bool {
        let at = u128::from(self.state.object);
        let in_map = at >= self.map_from && at < self.map_end;
        at >= self.header_end && at < 1 << 63 && at + 2 <= self.length && !in_map
    }

    /// `fit` alone: a size is at most what the words taken can hold.
    fn size_within(&self) -> bool {
        let limit = match self.state.words {
            0 => 0,
            1 => (1 << 15) - 1,
            _ => (1 << 30) - 1,
        };
        !self.size_limited || self.state.size <= limit
    }

    /// In the first or the second word of the size.
    fn words_open(&self) -> bool {
        let (done, words) = (self.state.done, u32::from(self.state.words));
        words <= 1 && done >= 2 * words && done < 2 * words + 2
    }

    /// In the data or the CRC.
    fn body_open(&self) -> bool {
        let s = &self.state;
        let at = u128::from(s.object);
        let (done, ms_len) = (u128::from(s.done), u128::from(s.ms_len));
        let end = at + ms_len + u128::from(s.size) + 2;
        let meets_map = at < self.map_end && end > self.map_from;
        (1..=2).contains(&s.words)
            && ms_len == 2 * u128::from(s.words)
            && s.size > 0
            && end <= self.length
            && !meets_map
            && done >= ms_len
            && done < end - at
    }
}
