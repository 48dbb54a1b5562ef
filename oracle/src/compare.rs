//! Another program's answers held against the judge's: the same generated
//! inputs go to both, and every line is compared.

use crate::{Kind, inputs};
use std::collections::BTreeMap;
use std::fs::File;
use std::panic::catch_unwind;
use std::path::{Path, PathBuf};
use std::process::{Child, Command, ExitStatus, Stdio};
use std::sync::Mutex;
use std::sync::atomic::{AtomicU64, Ordering};
use std::thread;
use std::time::{Duration, Instant};

/// One for each core that a comparison may use.
const WORKERS: usize = 2;
/// A program that takes longer for one input is stopped.
const PATIENCE: Duration = Duration::from_secs(30);

/// What is compared.
pub struct Task<'a> {
    pub kind: Kind,
    pub seed: u64,
    pub count: u64,
    pub ours: &'a Path,
    /// Where inputs are put, and kept where they differ.
    pub folder: &'a Path,
}

#[derive(Default)]
struct Tally {
    answers: u64,
    /// How many of each kind of answer the judge gave.
    kinds: BTreeMap<(String, u64), u64>,
    files_differing: u64,
    lines_differing: u64,
    /// The lowest file that differs, and where.
    first: Option<(u64, String)>,
}

/// An answer's kind: its first word, with the number for `X` and `E`. The
/// answers of `crc` and `heads` are numbers themselves.
fn answer_kind(kind: Kind, line: &str) -> (String, u64) {
    let (word, rest) = line.split_once(' ').unwrap_or((line, ""));
    let number = rest.split(' ').next().and_then(|n| n.parse().ok());
    match (word, kind) {
        ("X" | "E", _) => (word.to_string(), number.unwrap_or(0)),
        ("-" | "I", _) | (_, Kind::Drive | Kind::Once | Kind::Replay) => (word.to_string(), 0),
        _ => ("number".to_string(), 0),
    }
}

impl Tally {
    fn count(&mut self, kind: Kind, lines: &str) {
        for line in lines.lines() {
            *self.kinds.entry(answer_kind(kind, line)).or_default() += 1;
            self.answers += 1;
        }
    }

    fn differs(&mut self, file: u64, lines: u64, what: String) {
        self.files_differing += 1;
        self.lines_differing += lines;
        if self.first.as_ref().is_none_or(|(first, _)| file < *first) {
            self.first = Some((file, what));
        }
    }
}

/// Waits for the end, but not for ever.
fn patiently(mut child: Child) -> Result<ExitStatus, String> {
    let begun = Instant::now();
    loop {
        if let Some(status) = child.try_wait().map_err(|error| error.to_string())? {
            return Ok(status);
        }
        if begun.elapsed() > PATIENCE {
            child
                .kill()
                .and_then(|()| child.wait())
                .map_err(|error| error.to_string())?;
            return Err(format!("no end after {} s", PATIENCE.as_secs()));
        }
        thread::sleep(Duration::from_micros(100));
    }
}

/// What the program prints for this input. Both go through files, so that
/// neither side waits for the other.
fn run(ours: &Path, input: &[u8], scratch: &Path) -> Result<String, String> {
    let (from, to) = (scratch.with_extension("in"), scratch.with_extension("out"));
    let told = |error: std::io::Error| format!("{}: {error}", ours.display());
    std::fs::write(&from, input).map_err(told)?;
    let child = Command::new(ours)
        .stdin(File::open(&from).map_err(told)?)
        .stdout(File::create(&to).map_err(told)?)
        .stderr(Stdio::null())
        .spawn()
        .map_err(told)?;
    let status = patiently(child)?;
    let printed = std::fs::read(&to).map_err(told)?;
    if !status.success() {
        return Err(format!("it ended with {status}"));
    }
    String::from_utf8(printed).map_err(|_| "it printed what is no text".to_string())
}

/// How many lines differ, and what the first of them says on each side.
fn difference(judge: &str, ours: &str) -> Option<(u64, String)> {
    if judge == ours {
        return None;
    }
    let lines = |text: &str| -> Vec<String> { text.split('\n').map(str::to_string).collect() };
    let (theirs, ours) = (lines(judge), lines(ours));
    let most = theirs.len().max(ours.len());
    let apart: Vec<usize> = (0..most)
        .filter(|&n| theirs.get(n) != ours.get(n))
        .collect();
    let said = |side: &[String], n: usize| side.get(n).cloned().unwrap_or("nothing".to_string());
    let at = apart[0];
    let what = format!(
        "line {}: judge {}, ours {}",
        at + 1,
        said(&theirs, at),
        said(&ours, at)
    );
    Some((apart.len() as u64, what))
}

fn compare_file(task: &Task, file: u64, scratch: &Path, tally: &Mutex<Tally>) {
    let input = inputs::input(task.kind, task.seed, file);
    let judge = catch_unwind(|| task.kind.answer(&input));
    let ours = run(task.ours, &input, scratch);
    let mut tally = tally.lock().expect("no worker stops while it counts");
    match (judge, ours) {
        (Ok(judge), Ok(ours)) => {
            tally.count(task.kind, &judge);
            if let Some((lines, what)) = difference(&judge, &ours) {
                tally.differs(file, lines, what);
            }
        }
        (Err(_), _) => tally.differs(file, 1, "the judge itself stopped".to_string()),
        (_, Err(why)) => tally.differs(file, 1, why),
    }
}

/// Hands out the files to the workers.
fn compare_all(task: &Task, scratch: &Path) -> Tally {
    let tally = Mutex::new(Tally::default());
    let last = AtomicU64::new(0);
    thread::scope(|scope| {
        for worker in 0..WORKERS {
            let (tally, last) = (&tally, &last);
            let own = scratch.join(format!("worker{worker}"));
            scope.spawn(move || {
                loop {
                    let file = last.fetch_add(1, Ordering::Relaxed) + 1;
                    if file > task.count {
                        return;
                    }
                    compare_file(task, file, &own, tally);
                }
            });
        }
    });
    tally.into_inner().expect("no worker stops while it counts")
}

/// Keeps the input of a file that differs.
fn keep(task: &Task, file: u64) -> Result<PathBuf, String> {
    let path = task.folder.join(format!("differs-{file:06}.in"));
    let written = std::fs::write(&path, inputs::input(task.kind, task.seed, file));
    written.map_err(|error| format!("{}: {error}", path.display()))?;
    Ok(path)
}

fn report(task: &Task, tally: &Tally) -> String {
    let mut text = format!("{} files, {} answers\n", task.count, tally.answers);
    for ((word, number), count) in &tally.kinds {
        let numbered = if word == "X" || word == "E" {
            format!("{word} {number}")
        } else {
            word.clone()
        };
        text.push_str(&format!("{count:>9} {numbered}\n"));
    }
    let (lines, files) = (tally.lines_differing, tally.files_differing);
    text + &format!("{lines} differences in {files} files\n")
}

/// Compares and prints the report; an error where anything differs.
pub fn compare(task: &Task) -> Result<(), String> {
    let scratch = task.folder.join(format!("run{}", std::process::id()));
    let made = std::fs::create_dir_all(&scratch);
    made.map_err(|error| format!("{}: {error}", scratch.display()))?;
    let tally = compare_all(task, &scratch);
    let removed = std::fs::remove_dir_all(&scratch);
    removed.map_err(|error| format!("{}: {error}", scratch.display()))?;
    print!("{}", report(task, &tally));
    match &tally.first {
        None => Ok(()),
        Some((file, what)) => {
            let path = keep(task, *file)?;
            Err(format!("first {}: {what}", path.display()))
        }
    }
}
