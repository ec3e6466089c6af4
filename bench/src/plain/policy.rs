//! The policy's reader.

use super::Refusal;
use zankezurt::{State, POLICY_LENGTH};

#[derive(Clone, Copy)]
pub enum Formula {
    True,
    Proposition(u8),
    Not(u8),
    Or(u8, u8),
    Since { left: u8, right: u8, lower: u16, upper: u16 },
    Until { left: u8, right: u8, lower: u16, upper: u16 },
    And(u8, u8),
    Implies(u8, u8),
    Once(Span),
    Historically(Span),
    Eventually(Span),
    Always(Span),
}

/// One operand, from lower to upper minutes away.
#[derive(Clone, Copy)]
pub struct Span {
    pub operand: u8,
    pub lower: u16,
    pub upper: u16,
}

#[derive(Clone, Copy)]
pub struct Subformula {
    pub formula: Formula,
    pub rule: bool,
}

pub struct Policy {
    pub propositions: usize,
    pub components: usize,
    pub minutes: usize,
    pub rules: usize,
    count: usize,
    lines: [Subformula; 64],
}

impl Policy {
    pub fn subformulas(&self) -> &[Subformula] {
        &self.lines[..self.count]
    }

    /// Are the lent buffers of exact size?
    pub fn fits(&self, state: &State<'_>) -> bool {
        state.numbers.len() == self.components * (self.minutes + 1)
            && state.facts.len() == 2 * self.minutes
            && state.valuation.len() == self.count * self.minutes
            && state.verdicts.len() == self.rules * self.minutes
            && state.origin.len() == POLICY_LENGTH
    }
}

/// A line's map and fields, absent ones as 0.
struct Fields {
    map: u8,
    kind: u8,
    first: u8,
    second: u8,
    lower: u16,
    upper: u16,
}

const SIZES: [usize; 5] = [1, 1, 1, 2, 2];

fn has(map: u8, bit: usize) -> bool {
    map >> bit & 1 == 1
}

/// The value of each field of the line at the start of some bytes, and the line's length.
fn fields(bytes: &[u8]) -> Option<(Fields, usize)> {
    let map = *bytes.first()?;
    let mut values = [0u16; 5];
    let mut at = 1;
    for (bit, size) in SIZES.into_iter().enumerate() {
        if has(map, bit) {
            let field = bytes.get(at..at + size)?;
            values[bit] = field.iter().rev().fold(0, |value, &byte| value << 8 | byte as u16);
            at += size;
        }
    }
    let [kind, first, second, lower, upper] = values;
    Some((Fields { map, kind: kind as u8, first: first as u8, second: second as u8, lower, upper }, at))
}

fn is_good(fields: &Fields, line: usize, propositions: usize) -> bool {
    let written = [fields.kind as u16, fields.first as u16, fields.second as u16, fields.lower, fields.upper];
    let allowed = match fields.kind {
        0 => 0b00001,
        1 | 2 => 0b00011,
        3 | 6 | 7 => 0b00111,
        4 | 5 => 0b11111,
        _ => 0b11011,
    };
    let (first, second) = (fields.first as usize, fields.second as usize);
    let operands = match fields.kind {
        0 => true,
        1 => first < propositions,
        2 | 8..=11 => first < line,
        3..=7 => first < line && second < line,
        _ => false,
    };
    fields.map < 64
        && (0..5).all(|bit| has(fields.map, bit) == (written[bit] != 0))
        && fields.map & 31 & !allowed == 0
        && operands
        && fields.lower <= fields.upper
        && fields.upper <= 1023
}

fn formula(f: &Fields) -> Formula {
    let span = Span { operand: f.first, lower: f.lower, upper: f.upper };
    match f.kind {
        0 => Formula::True,
        1 => Formula::Proposition(f.first),
        2 => Formula::Not(f.first),
        3 => Formula::Or(f.first, f.second),
        4 => Formula::Since { left: f.first, right: f.second, lower: f.lower, upper: f.upper },
        5 => Formula::Until { left: f.first, right: f.second, lower: f.lower, upper: f.upper },
        6 => Formula::And(f.first, f.second),
        7 => Formula::Implies(f.first, f.second),
        8 => Formula::Once(span),
        9 => Formula::Historically(span),
        10 => Formula::Eventually(span),
        _ => Formula::Always(span),
    }
}

pub fn decode(bytes: &[u8]) -> Result<Policy, Refusal> {
    let &[propositions, components, low, high, count, ..] = bytes else {
        return Err((1, bytes.len()));
    };
    let heading = [(0, propositions as usize, 32), (1, components as usize, 16)];
    let minutes = u16::from_le_bytes([low, high]) as usize;
    let rest = [(2, minutes, 1024), (4, count as usize, 64)];
    for (place, value, most) in heading.into_iter().chain(rest) {
        if value < 1 || most < value {
            return Err((2, place));
        }
    }
    let mut lines = [Subformula { formula: Formula::True, rule: false }; 64];
    let mut rules = 0;
    let mut at = 5;
    for (i, line) in lines[..count as usize].iter_mut().enumerate() {
        let (fields, length) = fields(&bytes[at..]).ok_or((1, bytes.len()))?;
        if !is_good(&fields, i, propositions as usize) {
            return Err((3, at));
        }
        *line = Subformula { formula: formula(&fields), rule: has(fields.map, 5) };
        rules += line.rule as usize;
        at += length;
    }
    if at != bytes.len() {
        return Err((1, at));
    }
    if !(1..=8).contains(&rules) {
        return Err((4, 0));
    }
    let (propositions, components, count) = (propositions as usize, components as usize, count as usize);
    Ok(Policy { propositions, components, minutes, rules, count, lines })
}
