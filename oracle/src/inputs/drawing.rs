//! A drawing: what a plan becomes once everything has its place. It keeps
//! the places, so that damage can be aimed and CRCs mended.

use super::map::{Target, chunk, entry_bytes};
use super::plan::Plan;
use super::record::SEED;
use super::rng::Rng;
use crate::crc::crc8;
use crate::drive::Case;
use crate::streaming::door::{Locator, header_bytes};
use crate::streaming::{CLASS_SENTINELS, HEADER_VARS_SENTINELS};

pub struct Drawing {
    /// Without cuts.
    pub case: Case,
    /// The two sections and the map, as their locators say.
    pub units: [Locator; 3],
    pub records: Vec<usize>,
    /// Each chunk, the final one last.
    pub chunks: Vec<usize>,
}

#[derive(Clone, Copy, PartialEq, Eq)]
enum Blob {
    Section(usize),
    Map,
    Record(usize),
}

/// Where things lie, as far as that is known.
struct Places {
    sections: [usize; 2],
    map: usize,
    records: Vec<usize>,
    tail: usize,
    length: usize,
}

impl Places {
    fn of(&self, target: Target) -> u64 {
        match target {
            Target::Record(record) => self.records[record] as u64,
            Target::Tail => self.tail as u64,
            Target::Place(place) => place,
            Target::InMap(behind) => self.map as u64 + behind,
            Target::FromEnd(before) => (self.length as u64).saturating_sub(before),
        }
    }
}

/// A section's data: the plan's, then the records inside; and where in it
/// each of these begins.
fn section_data(plan: &Plan, part: usize) -> (Vec<u8>, Vec<(usize, usize)>) {
    let mut data = plan.sections[part].clone();
    let mut starts = Vec::new();
    for (number, record) in plan.records.iter().enumerate() {
        if record.inside == Some(part) {
            starts.push((number, data.len()));
            data.extend(record.bytes());
        }
    }
    (data, starts)
}

fn section_bytes(part: usize, data: &[u8]) -> Vec<u8> {
    let sentinels = [HEADER_VARS_SENTINELS, CLASS_SENTINELS][part];
    let mut covered = (data.len() as u32).to_le_bytes().to_vec();
    covered.extend(data);
    let crc = crc8(SEED, &covered).to_le_bytes();
    [&sentinels[0][..], &covered, &crc, &sentinels[1]].concat()
}

/// Each chunk's bytes, the final chunk last.
fn map_chunks(plan: &Plan, places: &Places) -> Vec<Vec<u8>> {
    let mut chunks = Vec::new();
    for (number, entries) in plan.chunks.iter().enumerate() {
        let mut bytes = entry_bytes(entries, |target| places.of(target));
        let off = plan.cut_short.get(number).copied().unwrap_or(0);
        bytes.truncate(bytes.len().saturating_sub(off).max(1));
        chunks.push(chunk(&bytes));
    }
    chunks.push(chunk(&[]));
    chunks
}

/// The order in the source. Records inside a section come with it.
fn order(plan: &Plan, rng: &mut Rng) -> Vec<Blob> {
    let mut blobs = vec![Blob::Section(0), Blob::Section(1)];
    let apart = (0..plan.records.len()).filter(|&n| plan.records[n].inside.is_none());
    blobs.extend(apart.map(Blob::Record));
    rng.shuffle(&mut blobs);
    let at = if plan.map_last {
        blobs.len()
    } else {
        rng.below(blobs.len() + 1)
    };
    blobs.insert(at, Blob::Map);
    blobs
}

/// A few bytes between two things, or none.
fn gap(rng: &mut Rng) -> usize {
    if rng.one_in(3) { rng.below(6) } else { 0 }
}

/// Gives everything its place, in the order of the blobs.
fn place_all(plan: &Plan, blobs: &[Blob], rng: &mut Rng) -> Places {
    let header_end = 43 + 9 * plan.count;
    let anything_inside = plan.records.iter().any(|r| r.inside.is_some());
    let mut at = if plan.in_header && !anything_inside {
        rng.below(header_end)
    } else {
        header_end + gap(rng)
    };
    let mut places = Places {
        sections: [0; 2],
        map: 0,
        records: vec![0; plan.records.len()],
        tail: 0,
        length: 0,
    };
    for &blob in blobs {
        at += gap(rng);
        at = place(plan, blob, at, &mut places);
    }
    places.tail = (at + gap(rng)).max(header_end);
    places.length = places.tail + plan.tail.len();
    places
}

/// Places one blob and answers where it ends.
fn place(plan: &Plan, blob: Blob, at: usize, places: &mut Places) -> usize {
    match blob {
        Blob::Section(part) => {
            let (data, starts) = section_data(plan, part);
            places.sections[part] = at;
            for (record, start) in starts {
                places.records[record] = at + 20 + start;
            }
            at + 38 + data.len()
        }
        Blob::Record(record) => {
            let at = at.max(43 + 9 * plan.count);
            places.records[record] = at;
            at + plan.records[record].bytes().len()
        }
        Blob::Map => {
            places.map = at;
            at + map_chunks(plan, places).concat().len()
        }
    }
}

pub fn put(source: &mut [u8], at: usize, bytes: &[u8]) {
    source[at..at + bytes.len()].copy_from_slice(bytes);
}

/// The three units' locators in any order, then others up to the count.
/// What comes behind with the same number has no say.
fn locators(units: &[Locator; 3], count: usize, length: usize, rng: &mut Rng) -> Vec<Locator> {
    let mut list = units.to_vec();
    rng.shuffle(&mut list);
    let honest = rng.one_in(2);
    for number in 3..count as u8 {
        let other = rng.pick(&[0, 1, 2, 3, 5, 6, 255]);
        let size = if honest { 0 } else { rng.wide(32) as u32 };
        let l = Locator {
            number: if honest { number } else { other },
            offset: rng.below(length + 1) as u32,
            size,
        };
        let at = if honest {
            rng.below(list.len() + 1)
        } else {
            list.len()
        };
        list.insert(at, l);
    }
    list
}

/// The plan as a drawing. Where the header is left free its own bytes stand
/// there, though the walk does not read them.
pub fn lay_out(mut plan: Plan, rng: &mut Rng) -> Drawing {
    plan.settle_widths();
    let blobs = order(&plan, rng);
    let places = place_all(&plan, &blobs, rng);
    let chunks = map_chunks(&plan, &places);
    let data = [0, 1].map(|part| section_data(&plan, part).0);
    let unit = |number: u8, at: usize, size: usize| Locator {
        number,
        offset: at as u32,
        size: size as u32,
    };
    let units = [
        unit(0, places.sections[0], 38 + data[0].len()),
        unit(1, places.sections[1], 38 + data[1].len()),
        unit(2, places.map, chunks.concat().len()),
    ];
    let mut drawing = Drawing {
        case: Case {
            magic: plan.magic,
            locators: locators(&units, plan.count, places.length, rng),
            cuts: Vec::new(),
            source: filler(places.length, rng),
        },
        units,
        records: places.records.clone(),
        chunks: chunk_places(places.map, &chunks),
    };
    drawing.write(&plan, &places, &data, &chunks.concat());
    drawing
}

fn filler(n: usize, rng: &mut Rng) -> Vec<u8> {
    if rng.one_in(2) {
        vec![0; n]
    } else {
        rng.bytes(n)
    }
}

fn chunk_places(map: usize, chunks: &[Vec<u8>]) -> Vec<usize> {
    let mut at = map;
    let mut places = Vec::new();
    for chunk in chunks {
        places.push(at);
        at += chunk.len();
    }
    places
}

impl Drawing {
    fn write(&mut self, plan: &Plan, places: &Places, data: &[Vec<u8>; 2], map: &[u8]) {
        let header = header_bytes(&self.case.header());
        let source = &mut self.case.source;
        let front = header.len().min(source.len());
        put(source, 0, &header[..front]);
        for (number, record) in plan.records.iter().enumerate() {
            if record.inside.is_none() {
                put(source, places.records[number], &record.bytes());
            }
        }
        for (part, data) in data.iter().enumerate() {
            put(source, places.sections[part], &section_bytes(part, data));
        }
        put(source, places.map, map);
        put(source, places.tail, &plan.tail);
    }
}
