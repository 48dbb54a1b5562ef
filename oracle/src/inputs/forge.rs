//! Forged states, for `W`: fields around every bound of `fit` and of
//! `consistent`, whatever a walk could reach.

use super::forge_header::{Bounds, bounds};
use super::record::Opening;
use super::rng::Rng;
use crate::streaming::door::{Header, State};

/// Plain choices, but for one of them: that one is at a bound or past it. So
/// a state is wrong in one way at most, and each bound has its say.
struct Choices<'a> {
    rng: &'a mut Rng,
    /// Which choice is the one at a bound.
    edge: usize,
    made: usize,
}

impl Choices<'_> {
    fn choose<T: Copy>(&mut self, plain: T, edges: &[T]) -> T {
        self.made += 1;
        if self.made == self.edge {
            self.rng.pick(edges)
        } else {
            plain
        }
    }

    /// A number from `low` to `high` where there is one, else `low`.
    fn within(&mut self, low: u64, high: u64) -> u64 {
        let span = high.saturating_sub(low).saturating_add(1);
        low + self.rng.next() % span
    }

    /// A number, at times close to the highest that it may be.
    fn up_to(&mut self, top: u64) -> u64 {
        let below = self.rng.next() % 300;
        let plain = self.rng.wide(40);
        self.rng.pick(&[top, top - below, plain, plain])
    }
}

fn blank(stage: u8, rng: &mut Rng) -> State {
    State {
        stage,
        done: 0,
        size: 0,
        crc: rng.next() as u16,
        field: rng.array(),
        head: [0; 16],
        object: 0,
        ms_len: 0,
        words: 0,
        chunk: 0,
        len: 0,
        at: 0,
        handle: 0,
        loc: 0,
        mc: 0,
        shift: 0,
        map_field: 0,
    }
}

/// A state that fits this header but for one bound, if for any.
pub fn state(rng: &mut Rng, header: &Header) -> State {
    let b = bounds(header);
    let (stage, edge) = (rng.below(16), rng.below(18));
    let mut c = Choices { rng, edge, made: 0 };
    match stage {
        0..2 => section(1, b.sections[0], &mut c),
        2..4 => section(2, b.sections[1], &mut c),
        4..6 => chunk(&b, &mut c),
        6..9 => entry(&b, &mut c),
        9..15 => object(&b, &mut c),
        _ => State {
            done: rng.next() as u32,
            chunk: rng.next(),
            shift: rng.byte(),
            ..blank(6, rng)
        },
    }
}

/// Outside the visits to entries nothing of an entry or an object is held.
/// Changes one such field, where the choice at the bound is this one.
fn leave_something(s: &mut State, c: &mut Choices) {
    match c.choose(0, &[1, 2, 3, 4, 5, 6, 7, 8, 9, 10, 11]) {
        0 => (),
        1 => s.object = 1,
        2 => s.ms_len = 2,
        3 => s.words = 1,
        4 => s.head[c.rng.below(16)] = 1,
        5 => s.len = 3,
        6 => s.at = 1,
        7 => s.handle = 1,
        8 => s.loc = 1,
        9 => s.mc = 1,
        10 => s.shift = 7,
        _ => s.map_field = 1,
    }
}

fn section(stage: u8, total: u64, c: &mut Choices) -> State {
    let size = (total as u32).wrapping_sub(38);
    let (total, crc) = (total as u32, size.wrapping_add(20));
    let plain = c.within(0, u64::from(total).saturating_sub(1)) as u32;
    let done = c.choose(plain, &[0, 15, 16, 19, 20, crc, crc.wrapping_add(2)]);
    let done = c.choose(done, &[total, total.wrapping_sub(1), total.wrapping_add(1)]);
    let settled = if done < 20 { 0 } else { size };
    let more = settled.wrapping_add(1);
    let mut state = State {
        done,
        size: c.choose(settled, &[0, size, more, settled.wrapping_sub(1)]),
        ..blank(stage, c.rng)
    };
    state.chunk = c.choose(0, &[1, u64::MAX]);
    leave_something(&mut state, c);
    state
}

/// A chunk's place: in the map, at its ends, at the top.
fn chunk_place(b: &Bounds, c: &mut Choices) -> u64 {
    let (from, end) = (b.map_from, b.map_end);
    let inside = c.within(from, end.saturating_sub(60).max(from));
    let edges = [
        from,
        from.wrapping_sub(1),
        end.wrapping_sub(3),
        end.wrapping_sub(4),
        end.wrapping_sub(5),
        u64::MAX - c.rng.next() % 8,
    ];
    c.choose(inside, &edges)
}

/// A chunk's size: up to the map's end, or at its bounds.
fn chunk_size(b: &Bounds, place: u64, c: &mut Choices) -> u32 {
    let to_end = b.map_end.wrapping_sub(place).wrapping_sub(2);
    let most = to_end.min(c.rng.pick(&[12, 50, 2034]));
    let plain = c.within(3, most) as u32;
    let end = to_end as u32;
    c.choose(plain, &[0, 1, 2, 3, 2034, 2035, end, end.wrapping_add(1)])
}

fn chunk(b: &Bounds, c: &mut Choices) -> State {
    let chunk = chunk_place(b, c);
    let size = chunk_size(b, chunk, c);
    let last = size.wrapping_add(1);
    let plain = c.within(0, last.into()) as u32;
    let done = c.choose(plain, &[0, 1, 2, size, last, last.wrapping_add(1)]);
    let settled = if done < 2 { 0 } else { size };
    let mut state = State {
        chunk,
        done,
        size: c.choose(settled, &[0, 1, size, 2, 2034, 2035]),
        ..blank(3, c.rng)
    };
    leave_something(&mut state, c);
    state
}

fn entry(b: &Bounds, c: &mut Choices) -> State {
    let chunk = chunk_place(b, c);
    let len = chunk_size(b, chunk, c);
    let last = u64::from(len).wrapping_sub(1);
    let plain = c.within(2, last);
    let behind = c.choose(plain, &[1, 2, last, len.into()]);
    let shift = 7 * c.rng.below(10) as u8;
    let (held, anything) = (c.rng.wide(shift.into()), c.rng.next());
    let top = (1 << 63) - 1;
    let loc = c.up_to(top);
    State {
        chunk,
        len,
        at: chunk.wrapping_add(behind),
        handle: c.up_to(u64::MAX),
        loc: c.choose(loc, &[top, top + 1, u64::MAX]),
        mc: c.choose(held, &[anything]),
        shift: c.choose(shift, &[1, 56, 57, 62, 63, 64, 70, 126, 255]),
        map_field: c.choose(shift % 2, &[0, 1, 2, 255]),
        head: c.rng.array(),
        object: anything,
        done: anything as u32,
        ..blank(4, c.rng)
    }
}

/// An object's place: before or behind the map, or at a bound.
fn object_place(b: &Bounds, c: &mut Choices) -> u64 {
    let before = c.within(b.header_end, b.map_from.saturating_sub(30));
    let behind = c.within(b.map_end, b.length.saturating_sub(30).min(1 << 62));
    let room_before = b.map_from >= b.header_end + 30;
    let room_behind = b.map_end + 30 <= b.length;
    let first = room_before && (c.rng.one_in(2) || !room_behind);
    let edges = [
        b.header_end,
        b.header_end - 1,
        b.map_from.wrapping_sub(1),
        b.map_from,
        b.map_end,
        b.map_end.wrapping_sub(1),
        b.length.wrapping_sub(1),
        b.length.wrapping_sub(2),
        (1 << 63) - 1,
        1 << 63,
    ];
    c.choose(if first { before } else { behind }, &edges)
}

/// A size at the bounds of its words, or up to the next wall.
fn object_size(b: &Bounds, at: u64, words: u8, c: &mut Choices) -> u32 {
    let wall = if at < b.map_from {
        b.map_from
    } else {
        b.length
    };
    let behind = 2 * u64::from(words) + 2;
    let to_wall = wall.wrapping_sub(at).wrapping_sub(behind);
    let plain = c.within(1, to_wall.min(20)) as u32;
    let end = to_wall as u32;
    let most = if words < 2 {
        (1 << 15) - 1
    } else {
        (1 << 30) - 1
    };
    match words {
        0 => c.choose(0, &[1]),
        _ => c.choose(
            plain,
            &[0, 1, end, end.wrapping_add(1), most, most + 1, u32::MAX],
        ),
    }
}

/// How far an object has come: anywhere, or at the ends of its parts.
fn object_done(words: u8, ms_len: u8, size: u32, c: &mut Choices) -> u32 {
    let begin = 2 * u32::from(words);
    let before = begin.wrapping_sub(1);
    if ms_len == 0 {
        let plain = begin + c.rng.pick(&[0, 1]);
        return c.choose(plain, &[before, begin + 2]);
    }
    let end = begin.wrapping_add(size);
    let last = end.wrapping_add(1);
    let plain = c.within(begin.into(), last.into()) as u32;
    c.choose(plain, &[before, begin, end, last, last.wrapping_add(1)])
}

/// A head that gives this handle.
fn head(b: &Bounds, handle: u64, rng: &mut Rng) -> [u8; 16] {
    let opening = Opening::random(rng, b.r2000, handle).bytes(rng);
    let mut head = rng.array();
    head[..opening.len()].copy_from_slice(&opening);
    head
}

fn object(b: &Bounds, c: &mut Choices) -> State {
    let chunk = chunk_place(b, c);
    let len = chunk_size(b, chunk, c);
    let plain = c.within(3, len.into());
    let behind = c.choose(plain, &[2, 3, len.into(), u64::from(len) + 1]);
    let object = object_place(b, c);
    let (words, ms_len) = c
        .rng
        .pick(&[(0, 0), (1, 0), (1, 2), (1, 2), (2, 4), (2, 4)]);
    let size = object_size(b, object, words, c);
    let done = object_done(words, ms_len, size, c);
    let edges = [(1, 4), (2, 2), (2, 0), (3, 6), (1, 3), (0, 2), (255, 254)];
    let (words, ms_len) = c.choose((words, ms_len), &edges);
    let handle = c.up_to(u64::MAX);
    State {
        chunk,
        len,
        at: chunk.wrapping_add(behind),
        handle,
        object,
        loc: c.choose(object, &[0, object ^ 1]),
        mc: c.choose(0, &[1, u64::MAX]),
        shift: c.choose(0, &[7, 56, 63]),
        map_field: c.choose(0, &[1, 2]),
        words,
        ms_len,
        size,
        done,
        head: head(b, handle, c.rng),
        ..blank(5, c.rng)
    }
}

/// A place next to some bound.
fn near(s: &State, b: &Bounds, rng: &mut Rng) -> u64 {
    let (from, end) = (b.map_from, b.map_end);
    let bounds = [
        0,
        from,
        end,
        b.header_end,
        b.length,
        1 << 63,
        s.chunk,
        s.loc,
    ];
    let (bound, away) = (rng.pick(&bounds), rng.next() % 4);
    rng.pick(&[bound.wrapping_add(away), bound.wrapping_sub(away)])
}

/// A number of bytes next to some bound.
fn nearly(s: &State, rng: &mut Rng) -> u32 {
    let bounds = [s.done, s.size, s.len, 0, 3, 20, 38, 2034, 32_767, 1 << 30];
    let n = rng.pick(&bounds);
    rng.pick(&[n, n.wrapping_add(1), n.wrapping_sub(1), u32::MAX])
}

/// Changes one field to a number that is next to some bound, or to anything.
pub fn disturb(s: &mut State, rng: &mut Rng, header: &Header) {
    let place = near(s, &bounds(header), rng);
    let number = nearly(s, rng);
    let small = rng.pick(&[0, 1, 2, 3, 4, 5, 6, 7, 255]);
    match rng.below(17) {
        0 => s.stage = rng.between(1, 6) as u8,
        1 => s.done = number,
        2 => s.size = number,
        3 => s.crc = rng.next() as u16,
        4 => s.head = rng.array(),
        5 => s.object = place,
        6 => s.ms_len = small,
        7 => s.words = small,
        8 => s.chunk = place,
        9 => s.len = number,
        10 => s.at = place,
        11 => s.handle = place,
        12 => s.loc = place,
        13 => s.mc = rng.next(),
        14 => s.shift = rng.pick(&[7, 49, 55, 56, 57, 62, 63, 64, 70, 126, 255]),
        15 => s.map_field = rng.pick(&[0, 1, 2, 255]),
        _ => (s.object, s.loc) = (place, place),
    }
}
