//! Request 7 of document 02, "Rules typed as text": a reader that goes down into the text, term by term, and the policy
//! that an accepted text becomes. `rule_grammar` decides the same by the request's words for 13 and 14.

use crate::abbreviation::{self, Expression, Interval};
use crate::policy::{HIGHEST_BOUND, MOST_COMPONENTS, MOST_MINUTES, MOST_PROPOSITIONS, MOST_SUBFORMULAS};
use crate::refusal::*;
use crate::write::{policy_text, Line, PolicyFields};

/// "Brackets may nest to 32."
const MOST_BRACKETS: usize = 32;

/// "A term is "true", "m" with a mark number (m7), "not term", or a group."
#[derive(Clone, Debug, PartialEq, Eq)]
pub enum Term {
    True,
    Proposition(usize),
    Not(Box<Term>),
    Group(Box<Term>, Join, Box<Term>),
}

/// What stands between the two terms of a group.
#[derive(Clone, Copy, Debug, PartialEq, Eq)]
pub enum Join {
    Or,
    And,
    Since(Interval),
    Until(Interval),
}

/// Writes the policy of the rule at the start of the lent buffer, and gives its length.
pub fn compile_rule(
    text: &[u8],
    propositions: usize,
    components: usize,
    minutes: usize,
    out: &mut [u8],
) -> Result<usize, Refusal> {
    let policy = compile(text, propositions, components, minutes, out.len())?;
    out[..policy.len()].copy_from_slice(&policy);
    Ok(policy.len())
}

/// The bytes of the rule's policy, where there is room for so many. "Marks, stations and minutes are given beside the
/// text and keep refusal 2, at place 0; 11 is tested last."
pub fn compile(
    text: &[u8],
    propositions: usize,
    components: usize,
    minutes: usize,
    room: usize,
) -> Result<Vec<u8>, Refusal> {
    let heading = (1..=MOST_PROPOSITIONS).contains(&propositions)
        && (1..=MOST_COMPONENTS).contains(&components)
        && (1..=MOST_MINUTES).contains(&minutes);
    if !heading {
        return refuse(BAD_HEADING, 0);
    }
    let lines = read(text, propositions)?.lines();
    let policy = policy_text(&PolicyFields { propositions, components, minutes, lines })?;
    if room < policy.len() {
        return refuse(SHORT_BUFFER, 0);
    }
    Ok(policy)
}

impl Term {
    /// "A line for each term, in the order in which their text ends, inner before outer, the last being the one rule."
    pub fn lines(&self) -> Vec<Line> {
        let mut lines = Vec::new();
        self.append(&mut lines);
        lines.last_mut().expect("a term has a line").rule = true;
        lines
    }

    /// Appends the lines of the terms in it and then its own, and gives the number of that.
    fn append(&self, lines: &mut Vec<Line>) -> u16 {
        let line = match self {
            Term::True => Line::default(),
            Term::Proposition(number) => Line { kind: 1, first: *number as u16, ..Line::default() },
            Term::Not(term) => Line { kind: 2, first: term.append(lines), ..Line::default() },
            Term::Group(first, join, second) => {
                let (first, second) = (first.append(lines), second.append(lines));
                let (kind, lower, upper) = match *join {
                    Join::Or => (3, 0, 0),
                    Join::And => (6, 0, 0),
                    Join::Since(interval) => (4, interval.lower, interval.upper),
                    Join::Until(interval) => (5, interval.lower, interval.upper),
                };
                Line { kind, first, second, lower: lower as u16, upper: upper as u16, rule: false }
            }
        };
        lines.push(line);
        lines.len() as u16 - 1
    }

    /// What the term means, with no line in between.
    pub fn expression(&self) -> Expression {
        match self {
            Term::True => Expression::True,
            Term::Proposition(number) => Expression::Proposition(*number),
            Term::Not(term) => abbreviation::not(term.expression()),
            Term::Group(first, join, second) => {
                let (first, second) = (first.expression(), second.expression());
                match *join {
                    Join::Or => abbreviation::or(first, second),
                    Join::And => abbreviation::and(first, second),
                    Join::Since(interval) => abbreviation::since(first, second, interval),
                    Join::Until(interval) => abbreviation::until(first, second, interval),
                }
            }
        }
    }
}

/// The term that the text is, or 13 or 14. The propositions are at least 1.
pub fn read(text: &[u8], propositions: usize) -> Result<Term, Refusal> {
    let mut reader = Reader { text, place: 0, propositions, terms: 0 };
    let term = reader.term(0)?;
    if reader.place < text.len() {
        return refuse(RULE_SYNTAX, reader.place);
    }
    Ok(term)
}

/// Reads from the text's start on and stops where it has to refuse.
struct Reader<'a> {
    text: &'a [u8],
    /// The first byte that is not read yet.
    place: usize,
    propositions: usize,
    /// How many terms have started.
    terms: usize,
}

/// A number as it stands in the text.
#[derive(Clone, Copy)]
struct Numeral<'a> {
    /// Of its first digit.
    place: usize,
    digits: &'a [u8],
}

impl<'a> Reader<'a> {
    fn next(&self) -> Option<u8> {
        self.text.get(self.place).copied()
    }

    /// Reads these bytes, or refuses the first that is another one, or the end.
    fn word(&mut self, word: &str) -> Result<(), Refusal> {
        for byte in word.bytes() {
            if self.next() != Some(byte) {
                return refuse(RULE_SYNTAX, self.place);
            }
            self.place += 1;
        }
        Ok(())
    }

    /// A term inside so many open brackets.
    fn term(&mut self, open: usize) -> Result<Term, Refusal> {
        if self.terms == MOST_SUBFORMULAS {
            return refuse(RULE_LIMIT, self.place);
        }
        self.terms += 1;
        match self.next() {
            Some(b't') => {
                self.word("true")?;
                Ok(Term::True)
            }
            Some(b'm') => {
                self.word("m")?;
                let number = self.numeral()?.at_most(self.propositions - 1)?;
                Ok(Term::Proposition(number))
            }
            Some(b'n') => {
                self.word("not ")?;
                Ok(Term::Not(Box::new(self.term(open)?)))
            }
            Some(b'(') if open == MOST_BRACKETS => refuse(RULE_LIMIT, self.place),
            Some(b'(') => self.group(open + 1),
            _ => refuse(RULE_SYNTAX, self.place),
        }
    }

    /// A group, its own bracket among the open ones.
    fn group(&mut self, open: usize) -> Result<Term, Refusal> {
        self.word("(")?;
        let first = self.term(open)?;
        self.word(" ")?;
        let join = self.join()?;
        self.word(" ")?;
        let second = self.term(open)?;
        self.word(")")?;
        Ok(Term::Group(Box::new(first), join, Box::new(second)))
    }

    fn join(&mut self) -> Result<Join, Refusal> {
        match self.next() {
            Some(b'o') => {
                self.word("or")?;
                Ok(Join::Or)
            }
            Some(b'a') => {
                self.word("and")?;
                Ok(Join::And)
            }
            Some(b's') => {
                self.word("since")?;
                Ok(Join::Since(self.interval()?))
            }
            Some(b'u') => {
                self.word("until")?;
                Ok(Join::Until(self.interval()?))
            }
            _ => refuse(RULE_SYNTAX, self.place),
        }
    }

    /// An interval. Its "[" stands before its numbers, but is wrong only where it is closed: so all of it is read before
    /// anything in it is refused, and then the earliest place comes first.
    fn interval(&mut self) -> Result<Interval, Refusal> {
        let bracket = self.place;
        self.word("[")?;
        let lower = self.numeral()?;
        let upper = match self.word(",") {
            Ok(()) => self.numeral(),
            Err(refusal) => Err(refusal),
        };
        let closed = match upper {
            Ok(_) => self.word("]"),
            Err(refusal) => Err(refusal),
        };
        if closed.is_ok() && upper.is_ok_and(|upper| is_above(lower.digits, upper.digits)) {
            return refuse(RULE_LIMIT, bracket);
        }
        let lower = lower.at_most(HIGHEST_BOUND)?;
        let upper = upper?.at_most(HIGHEST_BOUND)?;
        closed?;
        Ok(Interval { lower, upper })
    }

    /// "Numbers are decimal without leading zeros": 0 alone, or digits of which the first is not 0.
    fn numeral(&mut self) -> Result<Numeral<'a>, Refusal> {
        let place = self.place;
        while self.next().is_some_and(|byte| byte.is_ascii_digit()) {
            self.place += 1;
            if self.text[place] == b'0' {
                break;
            }
        }
        if self.place == place {
            return refuse(RULE_SYNTAX, place);
        }
        Ok(Numeral { place, digits: &self.text[place..self.place] })
    }
}

impl Numeral<'_> {
    /// Its value, which may be at most this; else 14 at its first digit.
    fn at_most(self, most: usize) -> Result<usize, Refusal> {
        let digit = |digit: &u8| usize::from(*digit - b'0');
        // Past the largest number it stays there, which is past every range.
        let value = self.digits.iter().fold(0usize, |value, next| value.saturating_mul(10).saturating_add(digit(next)));
        if value > most {
            return refuse(RULE_LIMIT, self.place);
        }
        Ok(value)
    }
}

/// Whether the number of these digits is above the other's, however many they are.
fn is_above(one: &[u8], other: &[u8]) -> bool {
    let length = one.len().max(other.len());
    let padded = |digits: &[u8]| [vec![b'0'; length - digits.len()], digits.to_vec()].concat();
    padded(one) > padded(other)
}
