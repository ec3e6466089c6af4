//! The two writers of document 02's request 3: a policy or a message from its fields, which may be any numbers.
//!
//! "Out-of-range fields are refused with the reader's numbers 2, 3, 4 and 8, in that order, at place 0." The bytes that
//! `generate` makes, wrong ones too, it makes without these writers, so that the two can be compared.

use crate::encoding::{little_endian_bytes, write_fields};
use crate::message::{self, Event, Message, ALIVE_BIT};
use crate::policy::*;
use crate::refusal::*;

/// The fields of a policy.
#[derive(Clone, Debug, PartialEq, Eq)]
pub struct PolicyFields {
    pub propositions: usize,
    pub components: usize,
    pub minutes: usize,
    pub lines: Vec<Line>,
}

/// The fields of a line (subformula), 0 where its kind has no such field.
#[derive(Clone, Copy, Debug, Default, PartialEq, Eq)]
pub struct Line {
    pub kind: u16,
    pub first: u16,
    pub second: u16,
    pub lower: u16,
    pub upper: u16,
    pub rule: bool,
}

/// The fields of a message, an alive or else an observation. Bits of `named` and `values` are as in [`Event`].
#[derive(Clone, Copy, Debug, Default, PartialEq, Eq)]
pub struct MessageFields {
    pub component: usize,
    pub alive: bool,
    pub minute: usize,
    pub number: usize,
    pub named: u32,
    pub values: u32,
}

/// Writes the policy of these fields at the start of the lent buffer, and gives its length.
pub fn encode_policy(fields: &PolicyFields, out: &mut [u8]) -> Result<usize, Refusal> {
    put(&policy_text(fields)?, out)
}

/// Writes the message of these fields at the start of the lent buffer, and gives its length: "for a slip also its card,
/// checked first", with 1 to 4 and the places of its reader.
pub fn encode_message(policy: &[u8], fields: &MessageFields, out: &mut [u8]) -> Result<usize, Refusal> {
    let policy = read(policy)?;
    put(&message_text(&policy, fields)?, out)
}

/// "11, short paper, when the lent buffer is shorter than the text, tested after those; nothing is written then." And
/// what "writes into a longer buffer keeps the rest of it".
fn put(text: &[u8], out: &mut [u8]) -> Result<usize, Refusal> {
    if out.len() < text.len() {
        return refuse(SHORT_BUFFER, 0);
    }
    out[..text.len()].copy_from_slice(text);
    Ok(text.len())
}

/// The bytes of the policy, or 2, 3 or 4.
pub fn policy_text(fields: &PolicyFields) -> Result<Vec<u8>, Refusal> {
    let PolicyFields { propositions, components, minutes, lines } = fields;
    let heading = (1..=MOST_PROPOSITIONS).contains(propositions)
        && (1..=MOST_COMPONENTS).contains(components)
        && (1..=MOST_MINUTES).contains(minutes)
        && (1..=MOST_SUBFORMULAS).contains(&lines.len());
    if !heading {
        return refuse(BAD_HEADING, 0);
    }
    if !lines.iter().enumerate().all(|(number, line)| line.is_in_range(number, *propositions)) {
        return refuse(BAD_SUBFORMULA, 0);
    }
    if !(1..=MOST_RULES).contains(&lines.iter().filter(|line| line.rule).count()) {
        return refuse(RULE_COUNT, 0);
    }
    let heading = [(*propositions, 1), (*components, 1), (*minutes, 2), (lines.len(), 1)];
    let heading = heading.into_iter().flat_map(|(number, size)| little_endian_bytes(number, size));
    Ok(heading.chain(lines.iter().flat_map(Line::text)).collect())
}

/// The bytes of the message under its policy, or 8.
pub fn message_text(policy: &Policy, fields: &MessageFields) -> Result<Vec<u8>, Refusal> {
    if !fields.are_in_range(policy) {
        return refuse(BAD_MESSAGE, 0);
    }
    let MessageFields { component, alive, minute, number, named, values } = *fields;
    let flags = u8::from(alive) << ALIVE_BIT;
    let text = write_fields(flags, &[component, minute, number, named as usize], &message::FIELD_SIZES);
    Ok([text, packed(named, values)].concat())
}

/// Which of first, second, lower and upper each kind allows: the last column of 01's table, and for the kinds from 6 on
/// "Six and seven take first and second; the rest take first, lower, upper".
const ALLOWED: [[bool; 4]; 12] = [NONE, ONE, ONE, TWO, FOUR, FOUR, TWO, TWO, SPAN, SPAN, SPAN, SPAN];
const NONE: [bool; 4] = [false; 4];
const ONE: [bool; 4] = [true, false, false, false];
const TWO: [bool; 4] = [true, true, false, false];
const FOUR: [bool; 4] = [true; 4];
const SPAN: [bool; 4] = [true, false, true, true];
const PROPOSITION_KIND: u16 = 1;

impl Line {
    /// Whether no line rule is broken, where the line has this number.
    fn is_in_range(&self, number: usize, propositions: usize) -> bool {
        let fields = [self.first, self.second, self.lower, self.upper];
        let Some(allowed) = ALLOWED.get(usize::from(self.kind)) else {
            return false;
        };
        // A proposition of the policy, or "numbers of earlier lines".
        let end = if self.kind == PROPOSITION_KIND { propositions } else { number };
        let mut operands = fields.iter().zip(allowed).take(2);
        fields.iter().zip(allowed).all(|(field, allowed)| *allowed || *field == 0)
            && operands.all(|(operand, allowed)| !*allowed || usize::from(*operand) < end)
            && self.lower <= self.upper
            && usize::from(self.upper) <= HIGHEST_BOUND
    }

    fn text(&self) -> Vec<u8> {
        let fields = [self.kind, self.first, self.second, self.lower, self.upper].map(usize::from);
        write_fields(u8::from(self.rule) << RULE_BIT, &fields, &FIELD_SIZES)
    }
}

/// The highest sequence number that its two bytes can hold.
const HIGHEST_NUMBER: usize = 65535;

impl MessageFields {
    /// Whether no slip rule and no card range is broken.
    fn are_in_range(&self, policy: &Policy) -> bool {
        let named = |bit: &u32| self.named >> bit & 1 == 1;
        let valued = |bit: &u32| self.values >> bit & 1 == 1;
        let event = if self.alive {
            self.minute <= policy.minutes && self.named == 0 && self.values == 0
        } else {
            self.minute < policy.minutes
                && self.number >= 1
                && (0..u32::BITS).filter(named).all(|bit| (bit as usize) < policy.propositions)
                && (0..u32::BITS).filter(valued).all(|bit| named(&bit))
        };
        self.component < policy.components && self.number <= HIGHEST_NUMBER && event
    }
}

/// "If n marks are named, the values are n/8 bytes rounded up; value bit j (from the lowest bit of the first byte) belongs
/// to the j-th named mark, lowest first, and spare bits are 0."
fn packed(named: u32, values: u32) -> Vec<u8> {
    let named: Vec<u32> = (0..u32::BITS).filter(|proposition| named >> proposition & 1 == 1).collect();
    let value = |proposition: &u32| (values >> proposition & 1) as u8;
    named.chunks(8).map(|eight| eight.iter().rev().fold(0, |byte, named| byte * 2 + value(named))).collect()
}

impl From<&Policy> for PolicyFields {
    fn from(policy: &Policy) -> PolicyFields {
        PolicyFields {
            propositions: policy.propositions,
            components: policy.components,
            minutes: policy.minutes,
            lines: policy.subformulas.iter().map(Line::from).collect(),
        }
    }
}

impl From<&Subformula> for Line {
    fn from(subformula: &Subformula) -> Line {
        let temporal = |kind, parts: Temporal| [kind, parts.first, parts.second, parts.lower, parts.upper];
        let spanned = |kind, span: Span| [kind, span.first, 0, span.lower, span.upper];
        let fields = match subformula.formula {
            Formula::True => [0, 0, 0, 0, 0],
            Formula::Proposition(first) => [1, first, 0, 0, 0],
            Formula::Not(first) => [2, first, 0, 0, 0],
            Formula::Or(first, second) => [3, first, second, 0, 0],
            Formula::Since(parts) => temporal(4, parts),
            Formula::Until(parts) => temporal(5, parts),
            Formula::And(first, second) => [6, first, second, 0, 0],
            Formula::Implies(first, second) => [7, first, second, 0, 0],
            Formula::Once(span) => spanned(8, span),
            Formula::Historically(span) => spanned(9, span),
            Formula::Eventually(span) => spanned(10, span),
            Formula::Always(span) => spanned(11, span),
        };
        let [kind, first, second, lower, upper] = fields.map(|field| field as u16);
        Line { kind, first, second, lower, upper, rule: subformula.rule }
    }
}

impl From<&Message> for MessageFields {
    fn from(message: &Message) -> MessageFields {
        let component = message.component;
        match message.event {
            Event::Observation { minute, number, named, values } => {
                MessageFields { component, alive: false, minute, number, named, values }
            }
            Event::Alive { minute, number } => {
                MessageFields { component, alive: true, minute, number, named: 0, values: 0 }
            }
        }
    }
}
