//! The stored cases of the program `drive_cases`: document 01's "Run" list,
//! and inputs that are not in the driver's form. The answers are the judge's.

use crate::crc::crc8;
use crate::drive::{Case, answer};
use crate::form::LIMIT;
use crate::inputs::chunk;
use crate::selftest::sketch::{OBJECT, locator, one_chunk, one_entry, sketch, whole};

/// What a case shows, and the driver's input.
type Named = (&'static str, Vec<u8>);

/// One part of the list: `stdin`, `stdout`, or a table that says which case
/// is which; and `whole`, the whole case of document 01 by itself.
pub fn part(name: &str) -> Result<Vec<u8>, String> {
    let cases = [run(), edges(), malformed()].concat();
    match name {
        "stdin" => Ok(cases.iter().flat_map(|(_, input)| counted(input)).collect()),
        "stdout" => Ok(cases.iter().map(|(_, input)| said(input)).collect::<String>().into_bytes()),
        "table" => Ok(table(&cases).into_bytes()),
        "whole" => Ok(whole().bytes()),
        _ => Err(format!("no such part of the list: {name}")),
    }
}

fn counted(input: &[u8]) -> Vec<u8> {
    [&(input.len() as u32).to_le_bytes()[..], input].concat()
}

fn said(input: &[u8]) -> String {
    answer(input) + "-\n"
}

fn table(cases: &[Named]) -> String {
    let head = "| No. | Case | Ends |\n|---|---|---|\n".to_string();
    let row = |(i, (what, input)): (usize, &Named)| {
        let lines = answer(input);
        let last = lines.lines().last().unwrap_or_default();
        format!("| {} | {what} | `{last}` |\n", i + 1)
    };
    head + &cases.iter().enumerate().map(row).collect::<String>()
}

/// Document 01, "Run".
fn run() -> Vec<Named> {
    let mut cases = vec![("the whole case", whole().bytes())];
    for (what, size) in [
        ("chunk size 1", 1),
        ("chunk size 2 before the map's end", 2),
        ("chunk size 3, its checksum right", 3),
        ("chunk size 2,035", 2035),
    ] {
        cases.push((what, sketch(&OBJECT, &chunk_of(size), &[]).bytes()));
    }
    let mut entries = vec![0x85, 0x00, 0x92, 0x01];
    entries.extend([0, 0].repeat(1014));
    let full = sketch(&OBJECT, &one_chunk(&entries), &[]);
    cases.push(("chunk size 2,034: 1,015 objects", full.bytes()));
    for (what, number, size) in [
        ("locator 0 of size 37", 0, 37),
        ("locator 1 of size 37", 1, 37),
        ("locator 0 of size 39", 0, 39),
        ("locator 1 of size 39", 1, 39),
    ] {
        cases.push((what, changed(|case| case.locators[number].size = size)));
    }
    cases.push(("locators 0 and 1 of size 38, cuts of 38", changed(|case| case.cuts = vec![38])));
    cases.push(("a span that ends at the map's first byte", spanning(8)));
    cases.push(("a span that ends one byte behind it", spanning(7)));
    for (what, cuts) in [
        ("a sentinel's first byte wrong, no cuts", vec![]),
        ("a sentinel's first byte wrong, cuts of 1", vec![1]),
        ("a sentinel's first byte wrong, cuts of 3 and 1", vec![3, 1]),
    ] {
        let spoil = |case: &mut Case| {
            case.source[70] ^= 1;
            case.cuts = cuts;
        };
        cases.push((what, changed(spoil)));
    }
    cases
}

/// Endings that cost no byte, stalls, and the form at its limits.
fn edges() -> Vec<Named> {
    let map = one_entry(5, 146 + 11);
    let mut longest = whole();
    longest.cuts = vec![1; 64];
    longest.source.resize(longest.room(), 0);
    let crowd = (3..6).map(|number| locator(number, 0, 0));
    vec![
        ("locator 0 missing", changed(|case| { case.locators.remove(0); })),
        ("no locators", changed(|case| case.locators.clear())),
        ("the map past the source's end", changed(|case| { case.source.pop(); })),
        ("a stall at a second size word", sketch(&[], &map, &[1, 0x80]).bytes()),
        ("a stall inside it", sketch(&[], &map, &[1, 0x80, 0]).bytes()),
        ("cuts of 5 and 2", changed(|case| case.cuts = vec![5, 2])),
        ("six locators", changed(|case| case.locators.extend(crowd))),
        ("64 cuts, 60,000 bytes", longest.bytes()),
    ]
}

/// What is not in the form: `I` alone.
fn malformed() -> Vec<Named> {
    let good = changed(|case| case.cuts = vec![3, 2]);
    let magic = 4 + 9 * 3;
    let cuts = magic + 4 + 6;
    let source = cuts + 4 + 2 * 2;
    let with_magic = |bytes: &[u8]| {
        let count = (bytes.len() as u32).to_le_bytes();
        [&good[..magic], &count, bytes, &good[cuts..]].concat()
    };
    let seven = (3..7).map(|number| locator(number, 0, 0));
    let mut long = whole();
    long.source.resize(long.room() + 1, 0);
    assert_eq!(long.bytes().len(), LIMIT + 1);
    vec![
        ("empty", Vec::new()),
        ("one byte short in the first count", good[..3].to_vec()),
        ("one byte short in the locators", good[..magic - 1].to_vec()),
        ("one byte short in the magic", good[..cuts - 1].to_vec()),
        ("one byte short in the cuts", good[..source - 1].to_vec()),
        ("one byte short in the source's count", good[..source + 3].to_vec()),
        ("one byte short in the source", good[..good.len() - 1].to_vec()),
        ("seven locators", changed(|case| case.locators.extend(seven))),
        ("five bytes of magic", with_magic(b"AC101")),
        ("seven bytes of magic", with_magic(b"AC10140")),
        ("65 cuts", changed(|case| case.cuts = vec![1; 65])),
        ("a cut of 0, the first of two", changed(|case| case.cuts = vec![0, 3])),
        ("a cut of 0, the last of two", changed(|case| case.cuts = vec![3, 0])),
        ("a byte too many", [&good[..], &[0]].concat()),
        ("60,001 bytes", long.bytes()),
    ]
}

/// The whole case with something changed.
fn changed(change: impl FnOnce(&mut Case)) -> Vec<u8> {
    let mut case = whole();
    change(&mut case);
    case.bytes()
}

/// A chunk that says this size, padded with zeros and with its checksum, and
/// the final chunk.
fn chunk_of(size: u16) -> Vec<u8> {
    let mut map = size.to_be_bytes().to_vec();
    map.resize(usize::from(size).max(2), 0);
    let crc = crc8(0xc0c1, &map).to_be_bytes();
    map.extend(crc);
    map.extend(chunk(&[]));
    map
}

/// A record of eight bytes before the map, of which the map leaves so many.
fn spanning(kept: usize) -> Vec<u8> {
    let mut record = vec![4, 0, 0x80, 0x41, 0x40, 0];
    let crc = crc8(0xc0c1, &record).to_le_bytes();
    record.extend(crc);
    sketch(&record[..kept], &one_entry(5, 146), &[]).bytes()
}
