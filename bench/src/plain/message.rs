//! The message's reader.

use super::policy::Policy;
use super::Refusal;

pub enum Event {
    Observation { minute: usize, number: u16, named: u32, values: u32 },
    Alive { minute: usize, number: u16 },
}

pub struct Message {
    pub component: usize,
    pub event: Event,
}

const ALIVE: usize = 4;

fn has(map: u8, bit: usize) -> bool {
    map >> bit & 1 == 1
}

/// The values' bits at the places of their propositions, lowest first.
fn expand(mut named: u32, mut packed: u32) -> u32 {
    let mut values = 0;
    while named != 0 {
        values |= (packed & 1) << named.trailing_zeros();
        packed >>= 1;
        named &= named - 1;
    }
    values
}

/// Has the word bits below place k only?
fn fits_below(word: u32, k: usize) -> bool {
    (word as u64) < 1 << k
}

/// The four fields, the value bytes as one number, and the whole length.
fn fields(bytes: &[u8]) -> Option<([u32; 4], u32, usize)> {
    let map = *bytes.first()?;
    let mut values = [0u32; 4];
    let mut at = 1;
    for (bit, size) in [1, 2, 2, 4].into_iter().enumerate() {
        if has(map, bit) {
            values[bit] = number(bytes.get(at..at + size)?);
            at += size;
        }
    }
    let size = values[3].count_ones().div_ceil(8) as usize;
    let packed = number(bytes.get(at..at + size)?);
    Some((values, packed, at + size))
}

fn number(bytes: &[u8]) -> u32 {
    bytes.iter().rev().fold(0, |value, &byte| value << 8 | byte as u32)
}

pub fn decode(bytes: &[u8], policy: &Policy) -> Result<Message, Refusal> {
    let (values, packed, length) = fields(bytes).ok_or((7, bytes.len()))?;
    if length != bytes.len() {
        return Err((7, length));
    }
    let map = bytes[0];
    let [component, minute, number, named] = values;
    let (component, minute, number) = (component as usize, minute as usize, number as u16);
    let written = (0..4).all(|bit| has(map, bit) == (values[bit] != 0));
    if map >= 32 || !written || component >= policy.components {
        return Err((8, 0));
    }
    if has(map, ALIVE) {
        if named != 0 || minute > policy.minutes {
            return Err((8, 0));
        }
        return Ok(Message { component, event: Event::Alive { minute, number } });
    }
    let known = fits_below(named, policy.propositions) && fits_below(packed, named.count_ones() as usize);
    if minute >= policy.minutes || number == 0 || !known {
        return Err((8, 0));
    }
    Ok(Message { component, event: Event::Observation { minute, number, named, values: expand(named, packed) } })
}
