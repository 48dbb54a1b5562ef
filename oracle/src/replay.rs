//! The judge of the form `replay`: each call is put to the Rust's walker and
//! answered with one line. What stands before the Rust is document 01's
//! order: a failure that is held, then 19, then the Rust.

use crate::answers::{bad_state, refusal, start_refusal, step_line};
use crate::calls::{Call, parse};
use crate::form::MALFORMED;
use crate::streaming::door::{
    self, FlatWalker, Refusal, StreamError, begin, consistent, fit, forge,
};

/// What the calls are put to.
pub enum Hand {
    /// No walk: none was begun, or Start refused.
    Empty,
    /// A state was taken in hand whose header Start refuses.
    Refused,
    Walk(FlatWalker),
}

pub struct Judge {
    pub hand: Hand,
}

impl Judge {
    pub fn new() -> Self {
        Self { hand: Hand::Empty }
    }

    /// Is a failure held, so that every later call repeats it?
    pub fn failed(&self) -> bool {
        matches!(&self.hand, Hand::Walk(walker) if door::failure(walker).is_some())
    }

    pub fn answer(&mut self, call: &Call) -> String {
        match call {
            Call::Start(header) => self.start(begin(header)),
            Call::Take(header, state) => {
                self.hand = forge(header, state).map_or(Hand::Refused, Hand::Walk);
                "W".to_string()
            }
            _ => match &mut self.hand {
                Hand::Empty => "-".to_string(),
                Hand::Refused => refused(call),
                Hand::Walk(walker) => put(walker, call),
            },
        }
    }

    fn start(&mut self, begun: Result<FlatWalker, Refusal>) -> String {
        match begun {
            Ok(walker) => {
                self.hand = Hand::Walk(walker);
                "W".to_string()
            }
            Err(no_walk) => {
                self.hand = Hand::Empty;
                start_refusal(no_walk).line()
            }
        }
    }
}

/// Calls on a state that can't be `fit`, since Start refuses its header.
fn refused(call: &Call) -> String {
    match call {
        Call::Consistent | Call::Fit => "0".to_string(),
        _ => bad_state().line(),
    }
}

fn put(walker: &mut FlatWalker, call: &Call) -> String {
    match call {
        Call::Consistent => u8::from(consistent(walker)).to_string(),
        Call::Fit => u8::from(fit(walker)).to_string(),
        _ if door::failure(walker).is_none() && !fit(walker) => bad_state().line(),
        Call::Request => match walker.request() {
            Ok(Some(demand)) => format!("D {} {}", demand.offset, demand.len),
            Ok(None) => "N".to_string(),
            Err(error) => refusal(error).line(),
        },
        Call::EndOfInput => line(walker.end_of_input(), |()| "N".to_string()),
        Call::Feed(offset, piece) => line(walker.feed(*offset, piece), |step| step_line(&step)),
        Call::Start(_) | Call::Take(..) => unreachable!("these are answered before a walk is"),
    }
}

fn line<T>(answer: Result<T, StreamError>, said: impl Fn(T) -> String) -> String {
    match answer {
        Ok(value) => said(value),
        Err(error) => refusal(error).line(),
    }
}

pub fn answer(input: &[u8]) -> String {
    let Some(calls) = parse(input) else {
        return MALFORMED.to_string();
    };
    let mut judge = Judge::new();
    let lines = calls.iter().map(|call| judge.answer(call) + "\n");
    lines.collect()
}
