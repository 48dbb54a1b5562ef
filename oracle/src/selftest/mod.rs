//! The judge's test of itself: the whole case and the table of document 01,
//! what was found when document 01 was held against the Rust, and that the
//! two ways to begin a walk are the same.

mod begin;
mod driver;
pub mod sketch;
mod states;
mod table;

/// Counts statements, and names those that don't hold.
#[derive(Default)]
pub struct Checks {
    held: usize,
    failed: Vec<String>,
}

impl Checks {
    pub fn holds(&mut self, what: &str, truth: bool) {
        if truth {
            self.held += 1;
        } else {
            self.failed.push(what.to_string());
        }
    }

    /// The two texts must be equal.
    pub fn prints(&mut self, what: &str, got: &str, want: &str) {
        let shown = format!("{what}: got {got:?}, wanted {want:?}");
        self.holds(&shown, got == want);
    }
}

pub fn selftest() -> Result<String, String> {
    let mut checks = Checks::default();
    table::check(&mut checks);
    driver::check(&mut checks);
    states::check(&mut checks);
    begin::check(&mut checks);
    let count = format!("{} hold, {} fail", checks.held, checks.failed.len());
    if checks.failed.is_empty() {
        Ok(format!("{count}\n"))
    } else {
        Err(format!("{}\n{count}", checks.failed.join("\n")))
    }
}
