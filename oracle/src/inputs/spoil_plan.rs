//! Faults that are put into a plan, before anything has its place: those of
//! entries and of records. The plan must have an entry that leads to a record.

use super::map::{Entry, Target};
use super::plan::Plan;
use super::record::{Opening, Record};
use super::rng::Rng;

fn some_record<'a>(plan: &'a mut Plan, rng: &mut Rng) -> &'a mut Record {
    let n = rng.below(plan.records.len());
    &mut plan.records[n]
}

/// An entry at the end of the last chunk that leads to the source's last
/// bytes.
fn lead_to_tail(plan: &mut Plan, rng: &mut Rng, tail: Vec<u8>) {
    plan.tail = tail;
    let step = rng.wide(10);
    plan.push_entry(rng, step, Target::Tail);
}

/// 6: the source ends before or in the second word of a size.
pub fn stall(plan: &mut Plan, rng: &mut Rng) {
    let mut tail = vec![rng.byte(), rng.byte() | 0x80];
    if rng.one_in(2) {
        tail.push(rng.byte());
    }
    lead_to_tail(plan, rng, tail);
}

/// 12: a tenth byte, a chunk that is used up too early, handles that pass
/// 64 bits.
pub fn entry(plan: &mut Plan, rng: &mut Rng) {
    let chunk = rng.below(plan.chunks.len());
    match rng.below(4) {
        0 => {
            let n = rng.below(plan.chunks[chunk].len());
            plan.chunks[chunk][n].widths[rng.below(2)] = 10;
        }
        1 => handles_too_high(plan, rng),
        kind => {
            plan.cut_short.resize(plan.chunks.len(), 0);
            plan.cut_short[chunk] = if kind == 2 {
                rng.between(1, 4)
            } else {
                usize::MAX
            };
        }
    }
}

fn handles_too_high(plan: &mut Plan, rng: &mut Rng) {
    plan.chunks.push(Vec::new());
    let most = u64::MAX >> 1;
    plan.add_entry(rng, most);
    plan.add_entry(rng, most);
    let record = plan.records.len() - 1;
    let step = 2 + rng.wide(20);
    plan.push_entry(rng, step, Target::Record(record));
}

/// 13: an entry leads into the header or the map, or past the source.
pub fn target(plan: &mut Plan, rng: &mut Rng) {
    let header_end = 43 + 9 * plan.count;
    let astray = match rng.below(7) {
        0 => Target::Place(rng.below(header_end) as u64),
        1 => Target::Place(header_end as u64 - 1),
        2 => Target::Place(rng.wide(61)),
        3 => Target::FromEnd(1),
        4 => Target::FromEnd(0),
        5 => Target::InMap(0),
        _ => Target::InMap(rng.below(9) as u64),
    };
    let chunk = rng.below(plan.chunks.len());
    let n = rng.below(plan.chunks[chunk].len());
    let entry: &mut Entry = &mut plan.chunks[chunk][n];
    entry.target = astray;
}

/// 14: size 0 in one word or two, or a third word announced.
pub fn size(plan: &mut Plan, rng: &mut Rng) {
    let announced = vec![rng.byte(), rng.byte() | 0x80, rng.byte(), rng.byte() | 0x80];
    let words = match rng.below(4) {
        0 => vec![0, 0],
        1 => vec![0, 0x80, 0, 0],
        2 => announced,
        _ => return lead_to_tail(plan, rng, vec![0, 0]),
    };
    some_record(plan, rng).false_words = Some(words);
}

/// 15.
pub fn record_crc(plan: &mut Plan, rng: &mut Rng) {
    let fault = rng.pick(&[1, 0x8000, 0xffff, 0x0100]);
    some_record(plan, rng).crc_fault = fault;
}

/// 16: a count above 8, or data that ends before the handle does.
pub fn opening(plan: &mut Plan, rng: &mut Rng) {
    let r2000 = plan.r2000();
    let too_many = 9 + rng.next() % 7;
    let short = rng.one_in(2);
    let record = some_record(plan, rng);
    let mut opening = Opening::random(rng, r2000, record.handle);
    if short {
        record.data = opening.bytes(rng);
        let n = record.data.len();
        let least = if rng.one_in(2) { n - 1 } else { 1 };
        record.data.truncate(rng.between(least, n - 1));
    } else {
        opening.count = too_many;
        record.data = opening.bytes(rng);
        record.data.extend(rng.bytes(12));
    }
}

/// 17: a record that gives another handle than the map.
pub fn handle(plan: &mut Plan, rng: &mut Rng) {
    let r2000 = plan.r2000();
    let bit = rng.below(64);
    let record = some_record(plan, rng);
    let low = record.handle ^ 1;
    let other = rng.pick(&[low, record.handle ^ 1 << bit]);
    record.data = Opening::random(rng, r2000, other).bytes(rng);
}
