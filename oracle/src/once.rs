//! The form `once`: the driver's input, walked in one call with lists of
//! several lengths. The judge walks by calls and says what a list that is
//! filled from its front has to show.

use crate::drive::{Case, Outcome, walk};
use crate::form::MALFORMED;

/// The most places that a list has.
pub const PLACES: usize = 4096;

/// No place, one too few, exactly enough and one too many.
fn lengths(objects: usize) -> Vec<usize> {
    let mut lengths = vec![0, objects.saturating_sub(1), objects, objects + 1];
    lengths.dedup();
    lengths.retain(|&places| places <= PLACES);
    lengths
}

/// What one call says: the records that it has, why it ended, the ending
/// with the number of objects in the list, and that every place behind them
/// is as it was lent.
fn told(outcome: &Outcome, places: usize) -> String {
    let sections = outcome.records.iter().filter(|line| line.starts_with('S'));
    let objects = outcome.records.iter().filter(|line| line.starts_with('O'));
    let needed = outcome.objects as usize;
    let mut lines = vec![format!("L {places}")];
    lines.extend(sections.cloned());
    if needed > places {
        lines.push(format!("X 18 {needed}"));
        lines.push("E 18 0".to_string());
    } else {
        lines.extend(objects.cloned());
        lines.extend(outcome.fault.as_ref().map(|fault| fault.line()));
        lines.push(format!("E {} {needed}", outcome.ending()));
    }
    lines.push("U".to_string());
    lines.iter().map(|line| format!("{line}\n")).collect()
}

pub fn answer(input: &[u8]) -> String {
    let Some(mut case) = Case::parse(input) else {
        return MALFORMED.to_string();
    };
    case.cuts.clear();
    let outcome = walk(&case);
    let lengths = lengths(outcome.objects as usize);
    lengths.iter().map(|&places| told(&outcome, places)).collect()
}
