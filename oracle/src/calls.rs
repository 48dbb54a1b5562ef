//! The form `replay`: a list of calls, read and written.

use crate::drive::{push_locator, read_locator};
use crate::form::Reader;
use crate::streaming::door::{Header, Locator, State};

#[derive(Debug, Clone)]
pub enum Call {
    Start(Header),
    /// A state taken in hand as it stands.
    Take(Header, State),
    Request,
    EndOfInput,
    Feed(u64, Vec<u8>),
    Consistent,
    Fit,
}

pub fn parse(input: &[u8]) -> Option<Vec<Call>> {
    let mut reader = Reader::new(input)?;
    let mut calls = Vec::new();
    while !reader.is_empty() {
        calls.push(read_call(&mut reader)?);
    }
    Some(calls)
}

fn read_call(reader: &mut Reader) -> Option<Call> {
    Some(match reader.u8()? {
        b'H' => Call::Start(read_header(reader)?),
        b'W' => Call::Take(read_header(reader)?, read_state(reader)?),
        b'R' => Call::Request,
        b'N' => Call::EndOfInput,
        b'F' => Call::Feed(reader.u64()?, reader.counted()?.to_vec()),
        b'C' => Call::Consistent,
        b'T' => Call::Fit,
        _ => return None,
    })
}

fn read_header(reader: &mut Reader) -> Option<Header> {
    let magic = reader.array()?;
    let count = reader.u8()?;
    let mut locators = [Locator::default(); 6];
    for l in &mut locators {
        *l = read_locator(reader)?;
    }
    Some(Header {
        magic,
        count,
        locators,
        length: reader.u64()?,
    })
}

fn read_state(reader: &mut Reader) -> Option<State> {
    Some(State {
        stage: reader.u8().filter(|stage| (1..=6).contains(stage))?,
        done: reader.u32()?,
        size: reader.u32()?,
        crc: reader.u16()?,
        field: reader.array()?,
        head: reader.array()?,
        object: reader.u64()?,
        ms_len: reader.u8()?,
        words: reader.u8()?,
        chunk: reader.u64()?,
        len: reader.u32()?,
        at: reader.u64()?,
        handle: reader.u64()?,
        loc: reader.u64()?,
        mc: reader.u64()?,
        shift: reader.u8()?,
        map_field: reader.u8()?,
    })
}

pub fn push_call(bytes: &mut Vec<u8>, call: &Call) {
    match call {
        Call::Start(header) => {
            bytes.push(b'H');
            push_header(bytes, header);
        }
        Call::Take(header, state) => {
            bytes.push(b'W');
            push_header(bytes, header);
            push_state(bytes, state);
        }
        Call::Request => bytes.push(b'R'),
        Call::EndOfInput => bytes.push(b'N'),
        Call::Feed(offset, piece) => {
            bytes.push(b'F');
            bytes.extend(offset.to_le_bytes());
            bytes.extend((piece.len() as u32).to_le_bytes());
            bytes.extend(piece);
        }
        Call::Consistent => bytes.push(b'C'),
        Call::Fit => bytes.push(b'T'),
    }
}

fn push_header(bytes: &mut Vec<u8>, header: &Header) {
    bytes.extend(header.magic);
    bytes.push(header.count);
    for l in &header.locators {
        push_locator(bytes, l);
    }
    bytes.extend(header.length.to_le_bytes());
}

fn push_state(bytes: &mut Vec<u8>, s: &State) {
    bytes.push(s.stage);
    bytes.extend(s.done.to_le_bytes());
    bytes.extend(s.size.to_le_bytes());
    bytes.extend(s.crc.to_le_bytes());
    bytes.extend(s.field);
    bytes.extend(s.head);
    bytes.extend(s.object.to_le_bytes());
    bytes.extend([s.ms_len, s.words]);
    bytes.extend(s.chunk.to_le_bytes());
    bytes.extend(s.len.to_le_bytes());
    for wide in [s.at, s.handle, s.loc, s.mc] {
        bytes.extend(wide.to_le_bytes());
    }
    bytes.extend([s.shift, s.map_field]);
}
