//! Where the Rust's own parser accepts a header, the walk that it begins and
//! the one that is begun by hand are equal, field by field.

use super::Checks;
use crate::inputs::{Rng, drawn_case, forged};
use crate::streaming::door::{Header, by_hand, start_refusal, through_parser};

pub fn check(checks: &mut Checks) {
    let mut accepted = 0;
    let mut rng = Rng::new(5);
    for number in 0..2000 {
        let drawn = drawn_case(9, number).header();
        let (forged, _) = forged(&mut rng);
        for header in [drawn, forged] {
            accepted += usize::from(same(checks, &header));
        }
    }
    checks.holds("the parser accepts many of these headers", accepted > 500);
}

/// Checks one header; was it accepted by the parser?
fn same(checks: &mut Checks, header: &Header) -> bool {
    if header.count > 6 {
        return false;
    }
    let Some(parsed) = through_parser(header) else {
        return false;
    };
    checks.holds(
        "Start takes what the parser takes",
        start_refusal(header).is_none(),
    );
    checks.holds(
        &format!("both begin alike: {header:?}"),
        parsed == by_hand(header),
    );
    true
}
