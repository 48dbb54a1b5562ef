//! Document 01's "Table to prove", and the checksum's two tables.

use super::Checks;
use super::sketch::{printed, sketch};
use crate::crc::crc8;
use crate::crc_form;
use crate::inputs::chunk;
use crate::streaming::door::{RecordFormat, prologue};

pub fn check(checks: &mut Checks) {
    let rows = crc_form::table().map(|text| text.lines().count());
    checks.holds(
        "the table read and the table derived are one",
        rows == Ok(2048),
    );
    checksums(checks);
    openings(checks);
    deltas(checks);
    sizes(checks);
}

fn checksums(checks: &mut Checks) {
    checks.holds("crc8 of nothing", crc8(0xc0c1, &[]) == 0xc0c1);
    checks.holds("crc8 of 01", crc8(0, &[1]) == 0xc0c1);
    checks.holds("crc8 of 00 02", crc8(0xc0c1, &[0, 2]) == 0x01d0);
    checks.holds("crc8 of four 00", crc8(0xc0c1, &[0; 4]) == 0xc03d);
}

fn openings(checks: &mut Checks) {
    use RecordFormat::{R14, R2000};
    let wide = [0x44, 0xc0, 0, 0, 0, 0, 0x4b, 0xc0];
    let rows: [(&[u8], RecordFormat, Option<(u16, u64)>); 4] = [
        (&[0x80, 0x41, 0x40], R14, Some((0, 5))),
        (&[0x00, 0x40, 0x80, 0x00], R14, Some((513, 0))),
        (&[0x82, 0x40], R14, None),
        (&wide, R2000, Some((19, 47))),
    ];
    for (head, format, said) in rows {
        checks.holds(
            &format!("opening {head:x?}"),
            prologue(head, format) == said,
        );
    }
}

/// Deltas show in the walk alone: a location that no object can have is
/// named by the fault, and so is a handle.
fn deltas(checks: &mut Checks) {
    let walk = |entries: &[u8]| {
        let lines = printed(&sketch(&[], &super::sketch::one_chunk(entries), &[]));
        lines
            .lines()
            .find(|l| l.starts_with('X'))
            .map(str::to_string)
    };
    let mut row = |what: &str, entries: &[u8], said: &str| {
        checks.prints(what, &walk(entries).unwrap_or_default(), said);
    };
    row("location 40", &[0x05, 0x40], "X 13 5 0");
    row("location 3F", &[0x05, 0x3f], "X 13 5 63");
    row("location 7F is below 0", &[0x05, 0x7f], "X 12 149");
    row("location C0 41 is below 0", &[0x05, 0xc0, 0x41], "X 12 150");
    row("location C0 01", &[0x05, 0xc0, 0x01], "X 13 5 192");
    row("handle FF 01", &[0xff, 0x01, 0x00], "X 13 255 0");
}

fn sizes(checks: &mut Checks) {
    let size_of = |words: [u8; 4], size: usize| {
        let mut record = words.to_vec();
        record.extend([0x80, 0x41, 0x40]);
        record.resize(4 + size, 0);
        let crc = crc8(0xc0c1, &record).to_le_bytes();
        record.extend(crc);
        let map = super::sketch::one_entry(5, 146);
        let lines = printed(&sketch(&record, &map, &[]));
        lines.lines().nth(2).unwrap_or_default().to_string()
    };
    checks.prints(
        "size 00 80 01 00",
        &size_of([0, 0x80, 1, 0], 32_768),
        "O 5 146 32768 0",
    );
    checks.prints(
        "size 03 80 00 00",
        &size_of([3, 0x80, 0, 0], 3),
        "O 5 146 3 0",
    );
    checks.prints("size 01 80 00 00", &size_of([1, 0x80, 0, 0], 1), "X 16 5");
    checks.holds("the final chunk", chunk(&[]) == [0x00, 0x02, 0x01, 0xd0]);
}
