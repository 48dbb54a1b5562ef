//! Single calls and forged states: what FINDINGS says of `consistent` and
//! `fit`, and document CALLS' points that are easy to read two ways.

use super::Checks;
use super::sketch::{OBJECT, one_chunk, sketch, whole};
use crate::Kind;
use crate::calls::{Call, parse};
use crate::inputs::{Rng, forged, input, some_bytes};
use crate::replay::Judge;
use crate::streaming::door::{
    State, by_hand, consistent, exactly_consistent, failure, fit, forge, sums_wrap,
};

pub fn check(checks: &mut Checks) {
    reached_but_refused(checks);
    refused_header(checks);
    first_failure(checks);
    size_without_end(checks);
    wrapped_sums(checks);
    calls(checks);
    exact_sums(checks);
    fit_is_sound(checks);
    fit_is_not_asked_too_late(checks);
}

/// The answers to these calls, by a judge that has heard nothing before.
fn said(calls: &[Call]) -> String {
    let mut judge = Judge::new();
    let lines: Vec<String> = calls.iter().map(|call| judge.answer(call)).collect();
    lines.join(", ")
}

/// Nine bytes of a delta that goes on: shift 63.
fn reached_but_refused(checks: &mut Checks) {
    let case = sketch(&OBJECT, &one_chunk(&[0x80; 10]), &[]);
    let mut walk = by_hand(&case.header());
    // Four pieces for each empty section, three for the chunk, nine entry bytes.
    for _ in 0..4 + 4 + 3 + 9 {
        if let Ok(Some(demand)) = walk.request() {
            let from = demand.offset as usize;
            let fed = walk.feed(demand.offset, &case.source[from..from + demand.len]);
            checks.holds("the way to shift 63", fed.is_ok());
        }
    }
    checks.holds("shift 63 is reached", State::of(&walk).shift == 63);
    checks.holds(
        "shift 63 is fit, not consistent",
        fit(&walk) && !consistent(&walk),
    );
}

fn done_state() -> State {
    State {
        stage: 6,
        ..State::of(&by_hand(&whole().header()))
    }
}

fn refused_header(checks: &mut Checks) {
    let mut header = whole().header();
    header.length = 100;
    checks.holds(
        "the Rust takes a header that Start refuses",
        consistent(&by_hand(&header)),
    );
    let asked = [Call::Consistent, Call::Fit, Call::Request, Call::EndOfInput];
    let none = [&[Call::Start(header)][..], &asked].concat();
    checks.prints("a refused start", &said(&none), "X 2 0, -, -, -, -");
    let forged = [&[Call::Take(header, done_state())][..], &asked].concat();
    checks.prints(
        "a state with such a header",
        &said(&forged),
        "W, 0, 0, X 19, X 19",
    );
    header.count = 7;
    checks.prints(
        "seven locators",
        &said(&[Call::Start(header), Call::Request]),
        "X 1 7, -",
    );
}

fn first_failure(checks: &mut Checks) {
    let mut header = whole().header();
    header.locators[0].size = 37;
    let calls = [
        Call::Start(header),
        Call::Consistent,
        Call::Feed(0, Vec::new()),
        Call::Request,
        Call::EndOfInput,
    ];
    checks.prints(
        "locator 0 under 38",
        &said(&calls),
        "W, 0, X 7 0, X 7 0, X 7 0",
    );
}

/// An object's state behind the whole case's map.
fn object_state() -> State {
    let mut state = done_state();
    state.stage = 5;
    (state.chunk, state.len, state.at) = (153, 5, 156);
    (state.object, state.loc) = (200, 200);
    state
}

fn size_without_end(checks: &mut Checks) {
    let mut header = whole().header();
    header.length = 1 << 40;
    let state = State {
        words: 1,
        ms_len: 2,
        done: 2,
        size: u32::MAX,
        ..object_state()
    };
    let calls = [
        Call::Take(header, state),
        Call::Consistent,
        Call::Fit,
        Call::Request,
    ];
    checks.prints("size 2^32 - 1 in one word", &said(&calls), "W, 1, 0, X 19");
    let fitting = State {
        size: 32_767,
        ..state
    };
    let calls = [
        Call::Take(header, fitting),
        Call::Consistent,
        Call::Fit,
        Call::Request,
    ];
    checks.prints(
        "size 32,767 in one word",
        &said(&calls),
        "W, 1, 1, D 202 32767",
    );
}

/// The places where the Rust's sums pass 64 bits.
fn wrapping_states() -> Vec<State> {
    let (done, object) = (done_state(), object_state());
    let mut states = vec![State {
        object: u64::MAX - 1,
        loc: u64::MAX - 1,
        ..object
    }];
    for below in 0..4 {
        let chunk = u64::MAX - below;
        states.push(State {
            stage: 3,
            chunk,
            ..done
        });
    }
    for chunk in [u64::MAX, u64::MAX - 1] {
        let len = 3;
        states.push(State {
            stage: 4,
            chunk,
            len,
            at: chunk.wrapping_add(2),
            ..done
        });
        states.push(State {
            chunk,
            len,
            ..object
        });
    }
    states
}

/// There the exact answer is no.
fn wrapped_sums(checks: &mut Checks) {
    for state in wrapping_states() {
        let walk = forge(&whole().header(), &state).expect("Start takes the whole case");
        checks.holds(&format!("a sum wraps: {state:?}"), sums_wrap(&walk));
        checks.holds(&format!("not consistent: {state:?}"), !consistent(&walk));
        checks.holds(&format!("not fit: {state:?}"), !fit(&walk));
    }
}

fn calls(checks: &mut Checks) {
    let header = whole().header();
    let calls = [
        Call::Request,
        Call::Start(header),
        Call::Feed(71, Vec::new()),
        Call::Feed(70, Vec::new()),
        Call::Feed(70, vec![0; 17]),
        Call::Request,
        Call::EndOfInput,
    ];
    let wanted = "-, W, X 4 70 71, X 5 16 0, X 5 16 17, D 70 16, X 6 70 16";
    checks.prints("refused calls", &said(&calls), wanted);
    let ended = [
        Call::Take(header, done_state()),
        Call::Request,
        Call::EndOfInput,
        Call::Feed(0, vec![1]),
        Call::Fit,
    ];
    checks.prints("a finished walk", &said(&ended), "W, N, N, X 3, 1");
}

/// Where no sum wraps, our exact `consistent` says what the Rust says.
fn exact_sums(checks: &mut Checks) {
    let mut rng = Rng::new(11);
    for _ in 0..20_000 {
        let (header, state) = forged(&mut rng);
        let Some(walk) = forge(&header, &state) else {
            continue;
        };
        let same = consistent(&walk) == exactly_consistent(&walk);
        checks.holds(&format!("exact sums: {state:?} {header:?}"), same);
    }
}

/// A `fit` state asks for something and takes it without a trap, and what
/// it takes leaves it `fit` or holding a failure.
fn fit_is_sound(checks: &mut Checks) {
    let mut rng = Rng::new(12);
    for _ in 0..20_000 {
        let (header, state) = forged(&mut rng);
        let Some(mut walk) = forge(&header, &state).filter(fit) else {
            continue;
        };
        let Ok(Some(demand)) = walk.request() else {
            continue;
        };
        let piece = some_bytes(&mut rng, &header, &walk, demand.len);
        let refused = walk.feed(demand.offset, &piece).is_err();
        let failed = failure(&walk).is_some();
        checks.holds(
            "a piece that is asked for fails or is taken",
            failed || !refused,
        );
        checks.holds(
            &format!("fit stays: {state:?} {header:?}"),
            failed || fit(&walk),
        );
    }
}

/// No generated input asks `fit` while a failure is held.
fn fit_is_not_asked_too_late(checks: &mut Checks) {
    for file in 1..200 {
        let mut judge = Judge::new();
        let calls = parse(&input(Kind::Replay, 13, file)).unwrap_or_default();
        for call in &calls {
            let late = matches!(call, Call::Fit) && judge.failed();
            checks.holds("fit is asked of a walk without a failure", !late);
            judge.answer(call);
        }
    }
}
