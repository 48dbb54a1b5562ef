//! Inputs of the form `replay`: walks over drawings with free cuts, refused
//! calls in between, forged states, and calls after the end.

use super::rng::Rng;
use super::{coax, drive, forge, forge_header};
use crate::calls::{Call, push_call};
use crate::form::LIMIT;
use crate::replay::{Hand, Judge};
use crate::streaming::door::{Header, Locator, Request, State, fit};

/// The calls so far, with a judge that has heard them: what is asked next
/// and what may be asked depends on the walk in hand.
struct Script {
    bytes: Vec<u8>,
    judge: Judge,
}

impl Script {
    fn call(&mut self, call: Call) {
        push_call(&mut self.bytes, &call);
        self.judge.answer(&call);
    }

    /// What the walk in hand waits for, where it does.
    fn demand(&self) -> Option<Request> {
        match &self.judge.hand {
            Hand::Walk(walker) if fit(walker) => walker.request().ok()?,
            _ => None,
        }
    }

    fn state(&self) -> Option<State> {
        match &self.judge.hand {
            Hand::Walk(walker) => Some(State::of(walker)),
            _ => None,
        }
    }

    /// A call that changes nothing. `fit` is not asked while a failure is
    /// held.
    fn ask(&mut self, rng: &mut Rng) {
        let call = match rng.below(4) {
            0 => Call::EndOfInput,
            1 => Call::Consistent,
            2 if !self.judge.failed() => Call::Fit,
            _ => Call::Request,
        };
        self.call(call);
    }

    /// A piece that is refused wherever a demand is open.
    fn refused_piece(&mut self, rng: &mut Rng) {
        let demand = self.demand();
        let (offset, len) = demand.map_or((rng.wide(64), 1), |d| (d.offset, d.len));
        let besides = rng.pick(&[1, 2, u64::MAX, 1 << 32]);
        let elsewhere = offset.wrapping_add(besides);
        let n = rng.below(9);
        let call = match rng.below(4) {
            0 => Call::Feed(offset, Vec::new()),
            1 if len < 200 => Call::Feed(offset, rng.bytes(len + 1 + n)),
            2 => Call::Feed(rng.next(), rng.bytes(n)),
            _ => Call::Feed(elsewhere, rng.bytes(len.min(n))),
        };
        self.call(call);
    }

    fn disturbance(&mut self, rng: &mut Rng) {
        if rng.one_in(3) {
            self.refused_piece(rng);
        } else {
            self.ask(rng);
        }
    }

    /// Calls after which nothing should have changed.
    fn disturbances(&mut self, rng: &mut Rng, most: usize) {
        for _ in 0..rng.below(most + 1) {
            self.disturbance(rng);
        }
    }
}

pub fn input(rng: &mut Rng) -> Vec<u8> {
    let mut script = Script {
        bytes: Vec::new(),
        judge: Judge::new(),
    };
    script.disturbances(rng, 2);
    if rng.one_in(4) {
        checked_states(&mut script, rng);
    } else {
        episodes(&mut script, rng);
    }
    let mut bytes = script.bytes;
    if rng.one_in(30) {
        spoil(&mut bytes, rng);
    }
    bytes
}

/// Walks and states of every kind, one after another.
fn episodes(script: &mut Script, rng: &mut Rng) {
    let full = rng.pick(&[300, 1500, 1500, 4000, 4000, 12_000]);
    while script.bytes.len() < full {
        match rng.below(8) {
            0..3 => walk_drawing(script, rng),
            3 => odd_start(script, rng),
            4 => reached_state(script, rng),
            _ => forged_state(script, rng),
        }
    }
}

/// Nothing but forged states and the two checks: many bounds in one file.
fn checked_states(script: &mut Script, rng: &mut Rng) {
    while script.bytes.len() < 12_000 {
        checked_state(script, rng);
    }
}

/// How many bytes of a demand one call is given.
fn cut(rng: &mut Rng, style: usize, len: usize) -> usize {
    match style {
        0 => len,
        1 => 1,
        2 => rng.between(1, len.min(7)),
        _ => rng.between(1, len),
    }
}

/// The source's bytes at a place; behind its end, anything.
fn source_bytes(source: &[u8], offset: u64, n: usize, rng: &mut Rng) -> Vec<u8> {
    let from = (offset as usize).min(source.len());
    let there = &source[from..source.len().min(from + n)];
    let mut bytes = there.to_vec();
    bytes.extend(rng.bytes(n - there.len()));
    bytes
}

/// Locators behind the count have no say, so they may be anything.
fn junk_behind(header: &mut Header, rng: &mut Rng) {
    let count = usize::from(header.count);
    for l in &mut header.locators[count..] {
        *l = Locator {
            number: rng.byte() % 4,
            offset: rng.next() as u32,
            size: rng.next() as u32,
        };
    }
}

/// A walk over a drawing to its end, or as far as there is room.
fn walk_drawing(script: &mut Script, rng: &mut Rng) {
    let case = drive::drawing(rng).case;
    if case.source.len() > 4000 {
        return;
    }
    let mut header = case.header();
    junk_behind(&mut header, rng);
    script.call(Call::Start(header));
    let style = rng.below(4);
    let calm = rng.pick(&[2, 6, 20, 200]);
    let steady = rng.pick(&[15, 200, 100_000]);
    while let Some(demand) = script.demand() {
        if script.bytes.len() > 40_000 {
            return;
        }
        if rng.one_in(calm) {
            script.disturbance(rng);
        }
        let n = cut(rng, style, demand.len);
        let mut piece = source_bytes(&case.source, demand.offset, n, rng);
        if rng.one_in(steady) {
            piece = rng.bytes(n);
        }
        script.call(Call::Feed(demand.offset, piece));
    }
    script.disturbances(rng, 5);
}

/// Headers that Start refuses or that begin with a failure.
fn odd_start(script: &mut Script, rng: &mut Rng) {
    let mut header = forge_header::header(rng);
    if !rng.one_in(4) {
        forge_header::disturb_header(&mut header, rng);
    }
    script.call(Call::Start(header));
    script.disturbances(rng, 5);
    go_on(script, rng, &header);
}

/// A state that a walk over a drawing passes, at times with fields changed,
/// taken in hand anew.
fn reached_state(script: &mut Script, rng: &mut Rng) {
    let case = drive::drawing(rng).case;
    let header = case.header();
    let mut scout = Script {
        bytes: Vec::new(),
        judge: Judge::new(),
    };
    scout.call(Call::Start(header));
    for _ in 0..rng.below(60) {
        let Some(demand) = scout.demand() else { break };
        let n = cut(rng, 3, demand.len);
        let piece = source_bytes(&case.source, demand.offset, n, rng);
        scout.call(Call::Feed(demand.offset, piece));
    }
    if let Some(mut state) = scout.state() {
        for _ in 0..rng.below(3) {
            forge::disturb(&mut state, rng, &header);
        }
        script.call(Call::Take(header, state));
        script.disturbances(rng, 4);
        go_on(script, rng, &header);
    }
}

/// A forged state, and what the two checks say of it.
fn checked_state(script: &mut Script, rng: &mut Rng) -> Header {
    let mut header = forge_header::header(rng);
    if rng.one_in(10) {
        forge_header::disturb_header(&mut header, rng);
    }
    let mut state = forge::state(rng, &header);
    for _ in 0..rng.pick(&[0, 0, 0, 0, 1, 2]) {
        forge::disturb(&mut state, rng, &header);
    }
    script.call(Call::Take(header, state));
    script.call(Call::Consistent);
    script.call(Call::Fit);
    header
}

fn forged_state(script: &mut Script, rng: &mut Rng) {
    let header = checked_state(script, rng);
    script.disturbances(rng, 3);
    go_on(script, rng, &header);
}

/// Feeds what the walk in hand is likely to take, for a while.
fn go_on(script: &mut Script, rng: &mut Rng, header: &Header) {
    for _ in 0..rng.between(1, 12) {
        let (Some(demand), Some(state)) = (script.demand(), script.state()) else {
            return script.disturbances(rng, 3);
        };
        let piece = coax::piece(rng, header, &state, demand.len);
        script.call(Call::Feed(demand.offset, piece));
        script.disturbances(rng, 1);
    }
}

/// Makes the form malformed.
fn spoil(bytes: &mut Vec<u8>, rng: &mut Rng) {
    match rng.below(6) {
        0 => bytes.push(rng.pick(b"hwrnfctI\n\0 A")),
        1 => bytes.extend([b'F', 1, 2, 3]),
        2 => bytes.extend([b'F', 0, 0, 0, 0, 0, 0, 0, 0, 255, 255, 255, 255]),
        3 => {
            bytes.push(b'W');
            bytes.extend([0; 69]);
            bytes.push(rng.pick(&[0, 7, 255]));
            bytes.extend([0; 86]);
        }
        4 => bytes.extend([b'H'; 69]),
        _ => bytes.resize(LIMIT + 1, b'R'),
    }
}
