//! What a drawing is to hold, before it has places: sections, records, and
//! the map's entries that lead to them.

use super::map::{Entry, Target};
use super::record::{Opening, Record};
use super::rng::Rng;

#[derive(Clone, Copy, PartialEq, Eq)]
pub enum Scale {
    Small,
    Middle,
    Large,
}

pub struct Plan {
    pub scale: Scale,
    pub magic: [u8; 6],
    /// How many locators the header counts, 3 to 6.
    pub count: usize,
    pub sections: [Vec<u8>; 2],
    pub records: Vec<Record>,
    pub chunks: Vec<Vec<Entry>>,
    /// Bytes to leave off the end of a chunk's entries.
    pub cut_short: Vec<usize>,
    /// The source's last bytes.
    pub tail: Vec<u8>,
    /// The map lies behind every record, so its deltas may be short.
    pub map_last: bool,
    /// Sections and map may lie where the header is.
    pub in_header: bool,
}

fn magic(rng: &mut Rng) -> [u8; 6] {
    match rng.below(12) {
        0..5 => *b"AC1014",
        5..10 => *b"AC1015",
        10 => *b"AC1012",
        _ => rng.pick(&[*b"AC1018", *b"ac1015", *b"AC1016", *b"AD1015", [0; 6]]),
    }
}

fn section_data(rng: &mut Rng, scale: Scale) -> Vec<u8> {
    let most = match scale {
        Scale::Small => 6,
        Scale::Middle => 120,
        Scale::Large => 6000,
    };
    let n = if rng.one_in(3) {
        0
    } else {
        rng.between(1, most)
    };
    rng.bytes(n)
}

/// How many bytes follow a record's opening.
fn extra(rng: &mut Rng, scale: Scale) -> usize {
    match scale {
        Scale::Small => rng.below(4),
        Scale::Middle if rng.one_in(6) => rng.below(200),
        Scale::Large if rng.one_in(12) => rng.between(32_700, 33_000),
        Scale::Large if rng.one_in(4) => rng.below(2000),
        _ => rng.below(24),
    }
}

/// What the handle grows by: often nothing, so that handles come twice.
fn step(rng: &mut Rng) -> u64 {
    match rng.below(8) {
        0..2 => 0,
        2..6 => rng.next() % 90 + 1,
        6 => rng.wide(14),
        _ => rng.wide(40),
    }
}

impl Plan {
    pub fn random(rng: &mut Rng, scale: Scale) -> Self {
        let mut plan = Self {
            scale,
            magic: magic(rng),
            count: rng.pick(&[3, 3, 4, 5, 6, 6]),
            sections: [section_data(rng, scale), section_data(rng, scale)],
            records: Vec::new(),
            chunks: Vec::new(),
            cut_short: Vec::new(),
            tail: Vec::new(),
            map_last: rng.one_in(2),
            in_header: rng.one_in(5),
        };
        let (chunks, entries) = match scale {
            Scale::Small => (2, 2),
            Scale::Middle => (3, 6),
            Scale::Large => (4, 10),
        };
        for _ in 0..rng.between(0, chunks) {
            let n = rng.between(1, entries);
            plan.add_chunk(rng, n);
        }
        plan
    }

    /// A chunk that is full: 1,015 entries for one record, of size 2,034 or
    /// next to it.
    pub fn full_chunk(rng: &mut Rng) -> Self {
        let mut plan = Self::random(rng, Scale::Small);
        plan.chunks.clear();
        plan.records.clear();
        plan.map_last = true;
        let record = plan.add_record(rng, 7);
        let widths = rng.pick(&[[1, 3], [2, 2], [1, 2], [2, 3], [1, 4]]);
        let first = Entry {
            step: 7,
            target: Target::Record(record),
            widths,
            negative_zero: false,
        };
        let again = Entry {
            step: 0,
            widths: [1, 1],
            negative_zero: rng.one_in(2),
            ..first
        };
        let mut entries = vec![again; 1015];
        entries[0] = first;
        plan.chunks = vec![entries];
        plan
    }

    pub fn r2000(&self) -> bool {
        self.magic == *b"AC1015"
    }

    pub fn add_record(&mut self, rng: &mut Rng, handle: u64) -> usize {
        let mut data = Opening::random(rng, self.r2000(), handle).bytes(rng);
        let n = extra(rng, self.scale);
        data.extend(rng.bytes(n));
        self.records.push(Record {
            handle,
            data,
            two_words: rng.one_in(6),
            inside: rng.one_in(6).then_some(rng.below(2)),
            false_words: None,
            crc_fault: 0,
        });
        self.records.len() - 1
    }

    pub fn add_chunk(&mut self, rng: &mut Rng, entries: usize) {
        self.chunks.push(Vec::new());
        for _ in 0..entries {
            let step = step(rng);
            self.add_entry(rng, step);
        }
    }

    /// The handle behind the last entry of the last chunk.
    fn handle(&self) -> u64 {
        let entries = self.chunks.last().map_or(&[][..], |chunk| chunk);
        entries.iter().map(|entry| entry.step).sum()
    }

    /// An entry at the end of the last chunk that leads to a record of its
    /// handle: at times one that other entries lead to.
    pub fn add_entry(&mut self, rng: &mut Rng, step: u64) {
        let handle = self.handle() + step;
        let known = self.records.iter().position(|r| r.handle == handle);
        let record = match known {
            Some(record) if !rng.one_in(3) => record,
            _ => self.add_record(rng, handle),
        };
        self.push_entry(rng, step, Target::Record(record));
    }

    pub fn push_entry(&mut self, rng: &mut Rng, step: u64, target: Target) {
        if self.chunks.is_empty() {
            self.chunks.push(Vec::new());
        }
        let wider = |rng: &mut Rng| if rng.one_in(8) { rng.between(2, 9) } else { 0 };
        let entry = Entry {
            step,
            target,
            widths: [wider(rng), wider(rng)],
            negative_zero: rng.one_in(2),
        };
        let last = self.chunks.last_mut().expect("a chunk was pushed");
        last.push(entry);
    }

    /// Deltas of a length that does not depend on where things come to lie.
    /// Needed unless every place is known when the map's length is.
    pub fn settle_widths(&mut self) {
        let entries = self.chunks.iter_mut().flatten();
        let mut least = if self.map_last { 0 } else { 3 };
        for entry in entries {
            match entry.target {
                Target::Record(_) => (),
                Target::Place(_) => least = 9,
                _ => least = least.max(3),
            }
            entry.widths[1] = entry.widths[1].max(least);
        }
    }
}
