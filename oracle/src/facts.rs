//! Small cases of the driver as text, with the judge's answers, to be turned
//! into computed checks of definitions. The cases go round the endings.

use crate::drive::{Case, walk};
use crate::inputs::small_case;

/// One case: its header, its source, what its walk comes to when it is given
/// one byte at a time.
fn text(number: u64, case: &Case) -> String {
    let listed = |bytes: &[u8]| -> String { bytes.iter().map(|byte| format!(" {byte}")).collect() };
    let mut lines = format!("case {number}\nmagic{}\n", listed(&case.magic));
    lines.push_str(&format!("count {}\n", case.locators.len()));
    for l in &case.locators {
        lines.push_str(&format!("locator {} {} {}\n", l.number, l.offset, l.size));
    }
    let (n, source) = (case.source.len(), listed(&case.source));
    lines.push_str(&format!("source {n}{source}\n"));
    let outcome = walk(case);
    for record in &outcome.records {
        lines.push_str(&format!("{record}\n"));
    }
    if let Some(fault) = &outcome.fault {
        lines.push_str(&format!("{}\n", fault.line()));
    }
    let (bytes, payload) = (outcome.bytes, outcome.payload);
    lines + &format!("E {} {bytes} {payload}\n", outcome.ending())
}

pub fn facts(seed: u64, count: u64, most: u64) -> Result<String, String> {
    let mut lines = String::new();
    for number in 1..=count {
        let case = small_case(seed, number, most as usize);
        let case = case.ok_or(format!("no case of {most} bytes was found"))?;
        lines.push_str(&text(number, &case));
    }
    Ok(lines)
}
