//! The policy (card of document 01) and its reader.

use crate::encoding::{little_endian, read_fields, Fields};
use crate::refusal::*;

pub const MOST_PROPOSITIONS: usize = 32;
pub const MOST_COMPONENTS: usize = 16;
pub const MOST_MINUTES: usize = 1024;
pub const MOST_SUBFORMULAS: usize = 64;
pub const MOST_RULES: usize = 8;
pub const HIGHEST_BOUND: usize = 1023;

/// Heading: marks (1 byte), stations (1), minutes (2), lines (1).
pub const HEADING_LENGTH: usize = 5;
/// The most bytes that a subformula takes: its map and all five fields.
pub const SUBFORMULA_LENGTH: usize = 8;
/// No policy is longer than this: 517 bytes.
pub const MOST_BYTES: usize = HEADING_LENGTH + MOST_SUBFORMULAS * SUBFORMULA_LENGTH;

/// The sizes in bytes of kind, first, second, lower and upper, in the order of their bits.
pub const FIELD_SIZES: [usize; 5] = [1, 1, 1, 2, 2];
pub const KIND: usize = 0;
pub const FIRST: usize = 1;
pub const SECOND: usize = 2;
pub const LOWER: usize = 3;
pub const UPPER: usize = 4;
/// The bit that makes the subformula a rule; the bits from the one after it on are 0.
pub const RULE_BIT: u32 = 5;

/// A policy: how many propositions (marks), components (stations) and minutes there are, and the subformulas
/// (lines).
#[derive(Clone, Debug, PartialEq, Eq)]
pub struct Policy {
    pub propositions: usize,
    pub components: usize,
    pub minutes: usize,
    pub subformulas: Vec<Subformula>,
}

/// A subformula (line of the card), which may be a rule.
#[derive(Clone, Copy, Debug, PartialEq, Eq)]
pub struct Subformula {
    pub formula: Formula,
    pub rule: bool,
}

/// The six kinds of document 01 and the six of document 02's request 6. Operands are numbers of earlier subformulas.
#[derive(Clone, Copy, Debug, PartialEq, Eq)]
pub enum Formula {
    True,
    Proposition(usize),
    Not(usize),
    Or(usize, usize),
    Since(Temporal),
    Until(Temporal),
    And(usize, usize),
    Implies(usize, usize),
    Once(Span),
    Historically(Span),
    Eventually(Span),
    Always(Span),
}

/// What since and until are made of: first since (or until) second, from lower to upper minutes away.
#[derive(Clone, Copy, Debug, PartialEq, Eq)]
pub struct Temporal {
    pub first: usize,
    pub second: usize,
    pub lower: usize,
    pub upper: usize,
}

/// What once, historically, eventually and always are made of: one operand, from lower to upper minutes away.
#[derive(Clone, Copy, Debug, PartialEq, Eq)]
pub struct Span {
    pub first: usize,
    pub lower: usize,
    pub upper: usize,
}

impl Policy {
    /// The subformula number of each rule: "rule numbers follow line order from 0".
    pub fn rules(&self) -> Vec<usize> {
        (0..self.subformulas.len()).filter(|number| self.subformulas[*number].rule).collect()
    }
}

/// The policy that these bytes encode. Order: 1 for the heading, 2, then line by line 1 before 3, trailing bytes 1,
/// then 4.
pub fn read(bytes: &[u8]) -> Result<Policy, Refusal> {
    if bytes.len() < HEADING_LENGTH {
        return refuse(TRUNCATED_POLICY, bytes.len());
    }
    let (mut policy, lines) = read_heading(bytes)?;
    let mut place = HEADING_LENGTH;
    for number in 0..lines {
        let Some(fields) = read_fields(bytes, place, &FIELD_SIZES) else {
            return refuse(TRUNCATED_POLICY, bytes.len());
        };
        let Some(subformula) = subformula(&fields, number, policy.propositions) else {
            return refuse(BAD_SUBFORMULA, place);
        };
        policy.subformulas.push(subformula);
        place = fields.end;
    }
    if place < bytes.len() {
        return refuse(TRUNCATED_POLICY, place);
    }
    let rules = policy.rules().len();
    if !(1..=MOST_RULES).contains(&rules) {
        return refuse(RULE_COUNT, 0);
    }
    Ok(policy)
}

/// The heading's policy, still without subformulas, and how many of them follow. A number out of range is refused at
/// the first byte of its field.
fn read_heading(bytes: &[u8]) -> Result<(Policy, usize), Refusal> {
    let number = |place: usize, size: usize, most: usize| {
        let number = little_endian(&bytes[place..place + size]);
        if !(1..=most).contains(&number) {
            return refuse(BAD_HEADING, place);
        }
        Ok(number)
    };
    let propositions = number(0, 1, MOST_PROPOSITIONS)?;
    let components = number(1, 1, MOST_COMPONENTS)?;
    let minutes = number(2, 2, MOST_MINUTES)?;
    let lines = number(4, 1, MOST_SUBFORMULAS)?;
    Ok((Policy { propositions, components, minutes, subformulas: Vec::new() }, lines))
}

/// The subformula with this number, or None if any line rule is broken.
fn subformula(fields: &Fields, number: usize, propositions: usize) -> Option<Subformula> {
    let high_bits = fields.map >> (RULE_BIT + 1);
    if high_bits != 0 || fields.has_written_zero() {
        return None;
    }
    let formula = formula(fields)?;
    let allowed = allowed(formula);
    if (FIRST..=UPPER).any(|field| fields.is_written(field) && !allowed.contains(&field)) {
        return None;
    }
    is_in_range(formula, number, propositions).then_some(Subformula { formula, rule: fields.bit(RULE_BIT) })
}

/// "Fields allowed besides kind"; and of the six newer kinds: "Six and seven take first and second; the rest take
/// first, lower, upper".
fn allowed(formula: Formula) -> &'static [usize] {
    match formula {
        Formula::True => &[],
        Formula::Proposition(_) | Formula::Not(_) => &[FIRST],
        Formula::Or(_, _) | Formula::And(_, _) | Formula::Implies(_, _) => &[FIRST, SECOND],
        Formula::Since(_) | Formula::Until(_) => &[FIRST, SECOND, LOWER, UPPER],
        Formula::Once(_) | Formula::Historically(_) | Formula::Eventually(_) | Formula::Always(_) => {
            &[FIRST, LOWER, UPPER]
        }
    }
}

/// Whether the proposition is the policy's, "operands are earlier lines", and "lower ≤ upper ≤ 1,023".
fn is_in_range(formula: Formula, number: usize, propositions: usize) -> bool {
    let interval = |lower: usize, upper: usize| lower <= upper && upper <= HIGHEST_BOUND;
    match formula {
        Formula::True => true,
        Formula::Proposition(proposition) => proposition < propositions,
        Formula::Not(first) => first < number,
        Formula::Or(first, second) | Formula::And(first, second) | Formula::Implies(first, second) => {
            first < number && second < number
        }
        Formula::Since(parts) | Formula::Until(parts) => {
            parts.first < number && parts.second < number && interval(parts.lower, parts.upper)
        }
        Formula::Once(span) | Formula::Historically(span) | Formula::Eventually(span) | Formula::Always(span) => {
            span.first < number && interval(span.lower, span.upper)
        }
    }
}

/// The formula by its kind, its fields not yet checked; None if there is no such kind.
fn formula(fields: &Fields) -> Option<Formula> {
    let first = fields.value(FIRST);
    let second = fields.value(SECOND);
    let (lower, upper) = (fields.value(LOWER), fields.value(UPPER));
    let parts = Temporal { first, second, lower, upper };
    let span = Span { first, lower, upper };
    match fields.value(KIND) {
        0 => Some(Formula::True),
        1 => Some(Formula::Proposition(first)),
        2 => Some(Formula::Not(first)),
        3 => Some(Formula::Or(first, second)),
        4 => Some(Formula::Since(parts)),
        5 => Some(Formula::Until(parts)),
        6 => Some(Formula::And(first, second)),
        7 => Some(Formula::Implies(first, second)),
        8 => Some(Formula::Once(span)),
        9 => Some(Formula::Historically(span)),
        10 => Some(Formula::Eventually(span)),
        11 => Some(Formula::Always(span)),
        _ => None,
    }
}
