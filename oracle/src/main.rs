//! The judge: the Rust of dwg-rs, built unchanged, behind the same input
//! forms that our own programs take.

mod answers;
mod calls;
mod compare;
mod crc_form;
mod drive;
mod facts;
mod form;
mod heads;
mod inputs;
mod once;
mod replay;
mod run_list;
mod selftest;

// The Rust: what the walk does not use stays unused.
#[allow(dead_code)]
mod crc;
#[allow(dead_code)]
mod crc_opened;
#[allow(dead_code, unused_imports)]
mod streaming;

use compare::{Task, compare};
use facts::facts;
use std::io::{Read, Write};
use std::path::Path;
use std::process::ExitCode;

const USAGE: &str = "usage: oracle table | crc | heads | drive | once | replay
       oracle gen KIND SEED COUNT DIR
       oracle compare KIND SEED COUNT OURS FOLDER
       oracle facts SEED COUNT MAXBYTES
       oracle run-list whole | stdin | stdout | table
       oracle selftest
KIND is crc, heads, drive, once or replay";

/// The input forms, each with its answers.
#[derive(Clone, Copy, PartialEq, Eq)]
pub enum Kind {
    Crc,
    Heads,
    Drive,
    Once,
    Replay,
}

impl Kind {
    fn named(name: &str) -> Option<Self> {
        match name {
            "crc" => Some(Self::Crc),
            "heads" => Some(Self::Heads),
            "drive" => Some(Self::Drive),
            "once" => Some(Self::Once),
            "replay" => Some(Self::Replay),
            _ => None,
        }
    }

    /// Everything that the judge prints for this input.
    fn answer(self, input: &[u8]) -> String {
        match self {
            Self::Crc => crc_form::answer(input),
            Self::Heads => heads::answer(input),
            Self::Drive => drive::answer(input),
            Self::Once => once::answer(input),
            Self::Replay => replay::answer(input),
        }
    }
}

/// Everything on standard input, but no more than shows that it is too long.
fn standard_input() -> Result<Vec<u8>, String> {
    let mut bytes = Vec::new();
    let limit = form::LIMIT as u64 + 1;
    let read = std::io::stdin().lock().take(limit).read_to_end(&mut bytes);
    read.map_err(|error| format!("standard input: {error}"))?;
    Ok(bytes)
}

fn number(text: &str) -> Result<u64, String> {
    text.parse().map_err(|_| format!("not a number: {text}"))
}

fn kind(name: &str) -> Result<Kind, String> {
    Kind::named(name).ok_or(USAGE.to_string())
}

/// Writes the inputs 1 to `count` as DIR/000001.in and so on.
fn generate(kind: Kind, seed: u64, count: u64, dir: &str) -> Result<String, String> {
    std::fs::create_dir_all(dir).map_err(|error| format!("{dir}: {error}"))?;
    for file in 1..=count {
        let path = format!("{dir}/{file:06}.in");
        let written = std::fs::write(&path, inputs::input(kind, seed, file));
        written.map_err(|error| format!("{path}: {error}"))?;
    }
    Ok(String::new())
}

fn run(arguments: &[&str]) -> Result<Vec<u8>, String> {
    if let ["run-list", part] = *arguments {
        return run_list::part(part);
    }
    text(arguments).map(String::into_bytes)
}

fn text(arguments: &[&str]) -> Result<String, String> {
    match *arguments {
        ["selftest"] => selftest::selftest(),
        ["table"] => crc_form::table(),
        ["gen", name, seed, count, dir] => {
            generate(kind(name)?, number(seed)?, number(count)?, dir)
        }
        ["compare", name, seed, count, ours, folder] => compare(&Task {
            kind: kind(name)?,
            seed: number(seed)?,
            count: number(count)?,
            ours: Path::new(ours),
            folder: Path::new(folder),
        })
        .map(|()| String::new()),
        ["facts", seed, count, most] => facts(number(seed)?, number(count)?, number(most)?),
        [name] => {
            let kind = kind(name)?;
            Ok(kind.answer(&standard_input()?))
        }
        _ => Err(USAGE.to_string()),
    }
}

fn main() -> ExitCode {
    let arguments: Vec<String> = std::env::args().skip(1).collect();
    let arguments: Vec<&str> = arguments.iter().map(String::as_str).collect();
    let printed = run(&arguments).and_then(|bytes| {
        let mut out = std::io::stdout().lock();
        let written = out.write_all(&bytes);
        written.map_err(|error| error.to_string())
    });
    match printed {
        Ok(()) => ExitCode::SUCCESS,
        Err(why) => {
            eprintln!("oracle: {why}");
            ExitCode::FAILURE
        }
    }
}
