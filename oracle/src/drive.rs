//! The form `drive`, document 01's driver: one header, one source, cuts; a
//! whole walk, its records, its ending and the tally.

use crate::answers::{Numbered, refusal, start_refusal, step_line};
use crate::form::{LIMIT, MALFORMED, Reader};
use crate::streaming::door::{FlatWalker, Header, Locator, Step, begin};

/// An input of the driver. The header's length is the source's.
#[derive(Debug, Clone)]
pub struct Case {
    pub magic: [u8; 6],
    pub locators: Vec<Locator>,
    pub cuts: Vec<u16>,
    pub source: Vec<u8>,
}

impl Case {
    /// The header that the case hands over; it has at most six locators.
    pub fn header(&self) -> Header {
        let mut locators = [Locator::default(); 6];
        locators[..self.locators.len()].copy_from_slice(&self.locators);
        Header {
            magic: self.magic,
            count: self.locators.len() as u8,
            locators,
            length: self.source.len() as u64,
        }
    }

    pub fn parse(input: &[u8]) -> Option<Case> {
        let mut reader = Reader::new(input)?;
        let count = reader.u32().filter(|&n| n <= 6)?;
        let locators = (0..count)
            .map(|_| read_locator(&mut reader))
            .collect::<Option<_>>()?;
        reader.u32().filter(|&n| n == 6)?;
        let magic = reader.array()?;
        let count = reader.u32().filter(|&n| n <= 64)?;
        let cut = |_| reader.u16().filter(|&cut| cut != 0);
        let cuts = (0..count).map(cut).collect::<Option<_>>()?;
        let source = reader.counted()?.to_vec();
        reader.is_empty().then_some(Case {
            magic,
            locators,
            cuts,
            source,
        })
    }

    /// The bytes that `parse` takes; longer than the form allows where the
    /// source is too long.
    pub fn bytes(&self) -> Vec<u8> {
        let mut bytes = (self.locators.len() as u32).to_le_bytes().to_vec();
        for l in &self.locators {
            push_locator(&mut bytes, l);
        }
        bytes.extend(6u32.to_le_bytes());
        bytes.extend(self.magic);
        bytes.extend((self.cuts.len() as u32).to_le_bytes());
        for cut in &self.cuts {
            bytes.extend(cut.to_le_bytes());
        }
        bytes.extend((self.source.len() as u32).to_le_bytes());
        bytes.extend(&self.source);
        bytes
    }

    /// How long the source may be beside these locators and cuts.
    pub fn room(&self) -> usize {
        LIMIT - (22 + 9 * self.locators.len() + 2 * self.cuts.len())
    }
}

pub fn read_locator(reader: &mut Reader) -> Option<Locator> {
    Some(Locator {
        number: reader.u8()?,
        offset: reader.u32()?,
        size: reader.u32()?,
    })
}

pub fn push_locator(bytes: &mut Vec<u8>, l: &Locator) {
    bytes.push(l.number);
    bytes.extend(l.offset.to_le_bytes());
    bytes.extend(l.size.to_le_bytes());
}

/// What a whole walk came to.
#[derive(Default)]
pub struct Outcome {
    /// The `S` and `O` lines, in walk order.
    pub records: Vec<String>,
    /// Why the walk ended, unless it finished.
    pub fault: Option<Numbered>,
    pub bytes: u64,
    pub payload: u64,
    pub objects: u64,
    pub repeats: u64,
    last_handle: Option<u64>,
}

impl Outcome {
    /// Document 01's number of the ending, 0 for a walk that finished.
    pub fn ending(&self) -> u8 {
        self.fault.as_ref().map_or(0, |fault| fault.number)
    }

    fn lines(&self) -> String {
        let mut lines: String = self.records.iter().map(|r| format!("{r}\n")).collect();
        if let Some(fault) = &self.fault {
            lines.push_str(&format!("{}\n", fault.line()));
        }
        let framing = self.bytes - self.payload;
        lines
            + &format!(
                "E {} {} {framing} {} {} {}\n",
                self.ending(),
                self.bytes,
                self.payload,
                self.objects,
                self.repeats
            )
    }

    fn count(&mut self, step: &Step, n: usize) {
        match step {
            Step::Payload(_) => self.payload += n as u64,
            Step::Section(_) => self.records.push(step_line(step)),
            Step::Object(o) => {
                self.records.push(step_line(step));
                self.objects += 1;
                self.repeats += u64::from(self.last_handle == Some(o.handle));
                self.last_handle = Some(o.handle);
            }
            _ => (),
        }
    }
}

/// The bytes that one call is given: the least of cut, demand and what is
/// there. Empty where the source has no byte at the place.
fn piece(source: &[u8], offset: u64, demand: usize, cut: usize) -> &[u8] {
    let from = usize::try_from(offset).map_or(source.len(), |at| at.min(source.len()));
    let there = &source[from..];
    &there[..there.len().min(demand).min(cut)]
}

pub fn walk(case: &Case) -> Outcome {
    let mut outcome = Outcome::default();
    match begin(&case.header()) {
        Ok(walker) => run(walker, case, &mut outcome),
        Err(no_walk) => outcome.fault = Some(start_refusal(no_walk)),
    }
    outcome
}

/// Each piece uses up one cut; the round of cuts goes on across demands.
fn run(mut walker: FlatWalker, case: &Case, outcome: &mut Outcome) {
    let mut cuts = case.cuts.iter().cycle();
    loop {
        let demand = match walker.request() {
            Ok(Some(demand)) => demand,
            Ok(None) => return,
            Err(error) => return outcome.fault = Some(refusal(error)),
        };
        let cut = cuts.next().map_or(usize::MAX, |&cut| cut.into());
        let bytes = piece(&case.source, demand.offset, demand.len, cut);
        if bytes.is_empty() {
            let stall = walker.end_of_input().expect_err("a demand is open");
            return outcome.fault = Some(refusal(stall));
        }
        outcome.bytes += bytes.len() as u64;
        match walker.feed(demand.offset, bytes) {
            Ok(step) => outcome.count(&step, bytes.len()),
            Err(error) => return outcome.fault = Some(refusal(error)),
        }
    }
}

pub fn answer(input: &[u8]) -> String {
    match Case::parse(input) {
        Some(case) => walk(&case).lines(),
        None => MALFORMED.to_string(),
    }
}
