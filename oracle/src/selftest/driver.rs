//! Whole walks: what document 01 prints, what it asks to be run, and what
//! FINDINGS says of endings, cuts and the driver's form.

use super::Checks;
use super::sketch::{OBJECT, locator, one_chunk, one_entry, printed, sketch, whole};
use crate::crc::crc8;
use crate::drive::{Case, answer, walk};
use crate::inputs::{chunk, drawn_case, entry};

pub fn check(checks: &mut Checks) {
    checks.prints("the whole case", &printed(&whole()), WHOLE);
    form(checks);
    endings(checks);
    chunk_sizes(checks);
    spans(checks);
    easy_to_get_wrong(checks);
    record_inside_section(checks);
    cuts(checks);
    bounds(checks);
}

const WHOLE: &str = "S 0 90 0\nS 1 128 0\nO 5 146 3 0\nE 0 97 94 3 1 0\n";

fn form(checks: &mut Checks) {
    let good = whole().bytes();
    let mut malformed = |what: &str, bytes: &[u8]| checks.prints(what, &answer(bytes), "I\n");
    malformed("empty", &[]);
    malformed("a byte too many", &[&good[..], &[0]].concat());
    malformed("a byte too few", &good[..good.len() - 1]);
    let changed = |at: usize, byte: u8| {
        let mut bytes = good.clone();
        bytes[at] = byte;
        bytes
    };
    malformed("seven locators", &changed(0, 7));
    malformed("five bytes of magic", &changed(31, 5));
    malformed("seven bytes of magic", &changed(31, 7));
    let mut case = whole();
    case.cuts = vec![3, 0];
    malformed("a cut of 0", &case.bytes());
    case.cuts = vec![1; 65];
    malformed("65 cuts", &case.bytes());
    case.cuts = vec![1; 64];
    checks.prints("64 cuts", &printed(&case), WHOLE);
    case.source.resize(case.room(), 0);
    checks.prints("60,000 bytes", &printed(&case), WHOLE);
    case.source.push(0);
    checks.prints("60,001 bytes", &printed(&case), "I\n");
}

fn last_lines(case: &Case, n: usize) -> String {
    let text = printed(case);
    let lines: Vec<&str> = text.lines().collect();
    lines[lines.len() - n..].join("\n")
}

fn endings(checks: &mut Checks) {
    let mut ends = |what: &str, case: &Case, said: &str| {
        checks.prints(what, &last_lines(case, 2), said);
    };
    let mut case = whole();
    case.locators.remove(0);
    ends("locator 0 missing", &case, "X 7 0\nE 7 0 0 0 0 0");
    case.source.pop();
    ends("the map past the end", &case, "X 2 2\nE 2 0 0 0 0 0");
    for (size, said) in [(37, "X 7 0\nE 7 0 0 0 0 0"), (39, "X 7 0\nE 7 20 20 0 0 0")] {
        let mut case = whole();
        case.locators[0].size = size;
        ends("a locator of another size", &case, said);
    }
    let map = one_entry(5, 146 + 11);
    for tail in [&[0x01, 0x80][..], &[0x01, 0x80, 0x00]] {
        let case = sketch(&[], &map, tail);
        let said = format!("X 6 {} {}", case.source.len(), 4 - tail.len());
        let lines = last_lines(&case, 2);
        ends_with_fault(checks, "a stall", &lines, &said);
    }
    let lines = last_lines(&sketch(&[], &map, &[0, 0]), 2);
    ends_with_fault(checks, "14 before 13", &lines, "X 14 5");
}

fn ends_with_fault(checks: &mut Checks, what: &str, lines: &str, fault: &str) {
    checks.prints(what, lines.lines().next().unwrap_or_default(), fault);
}

/// Document 01, "Run": chunk sizes 1, 2, 3, 2034, 2035.
fn chunk_sizes(checks: &mut Checks) {
    let fault = |size: u16| {
        let mut map = size.to_be_bytes().to_vec();
        map.resize(usize::from(size).max(2), 0);
        let crc = crc8(0xc0c1, &map).to_be_bytes();
        map.extend(crc);
        map.extend(chunk(&[]));
        let lines = last_lines(&sketch(&OBJECT, &map, &[]), 2);
        lines.lines().next().unwrap_or_default().to_string()
    };
    checks.prints("chunk size 1", &fault(1), "X 10 153");
    checks.prints("chunk size 2 before the end", &fault(2), "X 10 153");
    checks.prints("chunk size 3", &fault(3), "X 12 155");
    checks.prints("chunk size 2035", &fault(2035), "X 10 153");
    let mut entries = vec![0x85, 0x00, 0x92, 0x01];
    entries.extend([0, 0].repeat(1014));
    let full = sketch(&OBJECT, &one_chunk(&entries), &[]);
    let said = "E 0 11253 8208 3045 1015 1014";
    checks.prints("chunk size 2034", &last_lines(&full, 1), said);
}

fn spans(checks: &mut Checks) {
    let mut record = vec![4, 0, 0x80, 0x41, 0x40, 0];
    let crc = crc8(0xc0c1, &record).to_le_bytes();
    record.extend(crc);
    let body = &record[..7];
    let lines = last_lines(&sketch(body, &one_entry(5, 146), &[]), 2);
    ends_with_fault(checks, "one byte into the map", &lines, "X 13 5 146");
    let lines = last_lines(&sketch(&OBJECT, &one_entry(5, 153), &[]), 2);
    ends_with_fault(checks, "the map's first byte", &lines, "X 13 5 153");
    let behind = sketch(&[], &one_entry(5, 146 + 11), &OBJECT);
    checks.prints(
        "just behind the map",
        printed(&behind).lines().nth(2).unwrap_or_default(),
        "O 5 157 3 0",
    );
    let case = sketch(&OBJECT, &one_entry(5, 69), &[]);
    ends_with_fault(
        checks,
        "under the header's end",
        &last_lines(&case, 2),
        "X 13 5 69",
    );
}

fn easy_to_get_wrong(checks: &mut Checks) {
    let mut case = whole();
    case.source.swap(158, 159);
    ends_with_fault(
        checks,
        "map CRC little-endian",
        &last_lines(&case, 2),
        "X 11 153 48317 48572",
    );
    let twice = [chunk(&entry(5, 146)), one_entry(5, 146)].concat();
    let case = sketch(&OBJECT, &twice, &[]);
    checks.prints(
        "handles restart in a chunk",
        &last_lines(&case, 1),
        "E 0 114 108 6 2 1",
    );
    let mut case = whole();
    case.locators[2].size -= 4;
    ends_with_fault(checks, "no final chunk", &last_lines(&case, 2), "X 10 160");
}

/// The header-variable section moved to the end, with the object as its data,
/// and a map behind it.
fn record_inside_section(checks: &mut Checks) {
    let mut case = whole();
    let (start, end) = (case.source[70..86].to_vec(), case.source[92..108].to_vec());
    let covered = [&[7, 0, 0, 0][..], &OBJECT].concat();
    let crc = crc8(0xc0c1, &covered).to_le_bytes();
    let at = case.source.len();
    let map = one_entry(5, at + 20);
    case.source
        .extend([&start[..], &covered, &crc, &end, &map].concat());
    case.locators[0] = locator(0, at, 45);
    case.locators[2] = locator(2, at + 45, map.len());
    let said = format!("O 5 {} 3 0", at + 20);
    let lines = printed(&case);
    let object = lines.lines().nth(2).unwrap_or_default();
    checks.prints("a record inside a section", object, &said);
}

/// Cuts are seen in the counts of ending 8 alone.
fn cuts(checks: &mut Checks) {
    let mut case = whole();
    case.source[70] ^= 1;
    checks.prints(
        "ending 8, whole",
        &last_lines(&case, 2),
        "X 8 0\nE 8 16 16 0 0 0",
    );
    case.cuts = vec![1];
    checks.prints(
        "ending 8, single bytes",
        &last_lines(&case, 2),
        "X 8 0\nE 8 1 1 0 0 0",
    );
    for number in 0..400 {
        let mut case = drawn_case(7, number);
        case.cuts = Vec::new();
        let whole = walk(&case);
        for cuts in [vec![1], vec![3, 1, 2], vec![1000, 7]] {
            case.cuts = cuts;
            let cut = walk(&case);
            let counts = (cut.bytes, cut.payload) == (whole.bytes, whole.payload);
            let faults =
                cut.fault.as_ref().map(|f| f.line()) == whole.fault.as_ref().map(|f| f.line());
            let same = cut.records == whole.records && faults;
            checks.holds("cuts have no say", same && (counts || whole.ending() == 8));
        }
    }
}

/// Document 01's bounds on objects and on bytes accepted.
fn bounds(checks: &mut Checks) {
    for number in 0..400 {
        let case = drawn_case(8, number);
        let outcome = walk(&case);
        let size = |number: u8| {
            let l = case.locators.iter().find(|l| l.number == number);
            l.map_or(0, |l| u64::from(l.size))
        };
        let objects = size(2) / 2;
        let most = size(0) + size(1) + 2 * size(2) + objects * case.source.len() as u64;
        checks.holds("at most S/2 objects", outcome.objects <= objects);
        checks.holds("the bound on bytes", outcome.bytes <= most);
    }
}
