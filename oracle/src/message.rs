//! The message (slip of document 01) and its reader, which also reads the first message of a packet.

use crate::encoding::{read_fields, Fields};
use crate::policy::Policy;
use crate::refusal::*;

/// The sizes in bytes of component, minute, sequence number and proposition map, in the order of their bits.
pub const FIELD_SIZES: [usize; 4] = [1, 2, 2, 4];
pub const COMPONENT: usize = 0;
pub const MINUTE: usize = 1;
pub const NUMBER: usize = 2;
pub const PROPOSITIONS: usize = 3;
/// The bit that makes it an alive message; the bits from the one after it on are 0.
pub const ALIVE_BIT: u32 = 4;

/// A message read: its component (station), and an observation or an alive.
#[derive(Clone, Copy, Debug, PartialEq, Eq)]
pub struct Message {
    pub component: usize,
    pub event: Event,
}

/// `number` is the sequence number (count). Bit k of `named` tells whether proposition k is named, and bit k of
/// `values` is then its value; where a proposition is not named its value bit is 0.
#[derive(Clone, Copy, Debug, PartialEq, Eq)]
pub enum Event {
    Observation { minute: usize, number: usize, named: u32, values: u32 },
    Alive { minute: usize, number: usize },
}

/// The message that these bytes encode, for a single take: it "tests, before 8, that this part is empty", the part that
/// follows the first message.
pub fn read(policy: &Policy, bytes: &[u8]) -> Result<Message, Refusal> {
    let (message, rest) = read_first(policy, bytes);
    if !rest.is_empty() {
        return refuse(TRUNCATED_MESSAGE, bytes.len() - rest.len());
    }
    message
}

/// The first message of these bytes, 7 before 8, and the part that follows it: "on 7 the part handed back is empty, on 8
/// it is what follows the slip".
pub fn read_first<'a>(policy: &Policy, bytes: &'a [u8]) -> (Result<Message, Refusal>, &'a [u8]) {
    let cut = (refuse(TRUNCATED_MESSAGE, bytes.len()), &[][..]);
    let Some(fields) = read_fields(bytes, 0, &FIELD_SIZES) else {
        return cut;
    };
    let named = fields.value(PROPOSITIONS) as u32;
    let value_bytes = (named.count_ones() as usize).div_ceil(8);
    let Some((value_bytes, rest)) = bytes[fields.end..].split_at_checked(value_bytes) else {
        return cut;
    };
    let message = match (spread(named, value_bytes), well_formed(policy, &fields)) {
        (Some(values), true) => Ok(message(&fields, named, values)),
        _ => refuse(BAD_MESSAGE, 0),
    };
    (message, rest)
}

/// "Value bit j (from the lowest bit of the first byte) belongs to the j-th named mark, lowest first, and spare bits
/// are 0": the values at the named propositions' own bits, or None if a spare bit is 1.
fn spread(named: u32, bytes: &[u8]) -> Option<u32> {
    let bit = |j: usize| bytes[j / 8] >> (j % 8) & 1;
    let mut values = 0;
    let mut j = 0;
    for proposition in 0..u32::BITS {
        if named >> proposition & 1 == 1 {
            values |= u32::from(bit(j)) << proposition;
            j += 1;
        }
    }
    (j..bytes.len() * 8).all(|spare| bit(spare) == 0).then_some(values)
}

/// Every slip rule and card range but the one on spare bits.
fn well_formed(policy: &Policy, fields: &Fields) -> bool {
    let high_bits = fields.map >> (ALIVE_BIT + 1);
    let named = fields.value(PROPOSITIONS);
    let event = if fields.bit(ALIVE_BIT) {
        fields.value(MINUTE) <= policy.minutes && named == 0
    } else {
        fields.value(MINUTE) < policy.minutes && fields.value(NUMBER) >= 1
    };
    high_bits == 0
        && !fields.has_written_zero()
        && fields.value(COMPONENT) < policy.components
        && (named as u64) >> policy.propositions == 0
        && event
}

fn message(fields: &Fields, named: u32, values: u32) -> Message {
    let minute = fields.value(MINUTE);
    let number = fields.value(NUMBER);
    let event = if fields.bit(ALIVE_BIT) {
        Event::Alive { minute, number }
    } else {
        Event::Observation { minute, number, named, values }
    };
    Message { component: fields.value(COMPONENT), event }
}

/// What a message fixes. A place is one of a component's run of sequence numbers: place 0 stands for "before minute
/// 0" and place t + 1 for minute t.
#[derive(Clone, Debug, PartialEq, Eq)]
pub struct Fixed {
    /// Place and sequence number there.
    pub numbers: Vec<(usize, usize)>,
    /// Minute, proposition and its value there.
    pub facts: Vec<(usize, usize, bool)>,
}

impl Message {
    /// "An observation at minute t with count s fixes its station's count at t to s and at t − 1 to s − 1, and fixes
    /// the named marks at t. An alive slip at minute t with count s fixes the count at t − 1 to s and names no marks."
    pub fn fixes(&self) -> Fixed {
        match self.event {
            Event::Observation { minute, number, named, values } => Fixed {
                numbers: vec![(minute, number - 1), (minute + 1, number)],
                facts: (0..u32::BITS as usize)
                    .filter(|proposition| named >> proposition & 1 == 1)
                    .map(|proposition| (minute, proposition, values >> proposition & 1 == 1))
                    .collect(),
            },
            Event::Alive { minute, number } => Fixed { numbers: vec![(minute, number)], facts: Vec::new() },
        }
    }
}
