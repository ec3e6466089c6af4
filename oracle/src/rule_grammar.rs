//! Request 7 of document 02 again, by its words for 13 and 14: from the grammar come all the ways in which a beginning of
//! the text can go on, and from those the places. Nothing here is shared with the reader in `rule_text`.

use crate::refusal::*;
use std::rc::Rc;
use Part::{Digits, Group, Number, OneOf, Term, Text};

/// A part of a text of the grammar.
#[derive(Clone, Copy)]
enum Part {
    /// These bytes, at least one.
    Text(&'static str),
    /// A byte from the first to the last of these.
    OneOf(u8, u8),
    Term,
    /// What follows the first term of a group.
    Group,
    Number,
    /// More digits of a number, or none.
    Digits,
}

/// What a part that is not made of bytes may be: one of these, each of which is parts in a row.
fn choices(part: Part) -> &'static [&'static [Part]] {
    match part {
        Text(_) | OneOf(..) => &[],
        Term => &[&[Text("true")], &[Text("m"), Number], &[Text("not "), Term], &[Text("("), Term, Group]],
        Group => &[
            &[Text(" or "), Term, Text(")")],
            &[Text(" and "), Term, Text(")")],
            &[Text(" since["), Number, Text(","), Number, Text("] "), Term, Text(")")],
            &[Text(" until["), Number, Text(","), Number, Text("] "), Term, Text(")")],
        ],
        Number => &[&[Text("0")], &[OneOf(b'1', b'9'), Digits]],
        Digits => &[&[], &[OneOf(b'0', b'9'), Digits]],
    }
}

/// What has yet to come for a whole text: nothing, or a part and then the rest.
#[derive(Clone)]
enum Rest {
    Nothing,
    Then(Part, Rc<Rest>),
}

/// The rest with these parts before it.
fn before(parts: &[Part], rest: &Rest) -> Rest {
    parts.iter().rev().fold(rest.clone(), |rest, part| Rest::Then(*part, Rc::new(rest)))
}

/// All that may have yet to come after this byte, where this had before it.
fn after(rest: &Rest, byte: u8) -> Vec<Rest> {
    let Rest::Then(part, later) = rest else {
        return Vec::new();
    };
    match *part {
        Text(text) if text.as_bytes()[0] != byte => Vec::new(),
        Text(text) if text.len() == 1 => vec![(**later).clone()],
        Text(text) => vec![before(&[Text(&text[1..])], later)],
        OneOf(first, last) if (first..=last).contains(&byte) => vec![(**later).clone()],
        OneOf(..) => Vec::new(),
        _ => choices(*part).iter().flat_map(|parts| after(&before(parts, later), byte)).collect(),
    }
}

/// Whether a whole text may end here.
fn may_end(rest: &Rest) -> bool {
    match rest {
        Rest::Nothing => true,
        Rest::Then(part, later) => choices(*part).iter().any(|parts| parts.is_empty()) && may_end(later),
    }
}

/// For each beginning of the text that can go on, from the empty one to the longest, all that may have yet to come.
fn ways(text: &[u8]) -> Vec<Vec<Rest>> {
    let mut ways = vec![vec![before(&[Term], &Rest::Nothing)]];
    for byte in text {
        let next: Vec<Rest> = ways[ways.len() - 1].iter().flat_map(|rest| after(rest, *byte)).collect();
        if next.is_empty() {
            break;
        }
        ways.push(next);
    }
    ways
}

/// The ways in which a rule is too much.
#[derive(Clone, Copy, Debug, PartialEq, Eq)]
pub enum Limit {
    /// "A "(" inside 32 open ones."
    Brackets,
    /// "A number past its range."
    Number,
    /// "A 65th term."
    Terms,
    /// "A closed interval with a above b."
    Interval,
}

/// What the grammar says of a text.
#[derive(Clone, Debug, PartialEq, Eq)]
pub struct Parsed {
    /// The length of the longest beginning that can go on: "the first byte that no text of the grammar can continue with,
    /// or [...] the text's end if it is unfinished".
    pub longest: usize,
    /// Whether the text is of the grammar.
    pub whole: bool,
    /// Every place at which the rule is too much, within that beginning.
    pub limits: Vec<(Limit, usize)>,
}

/// What the grammar says of a text, with so many propositions.
pub fn parsed(text: &[u8], propositions: usize) -> Parsed {
    let ways = ways(text);
    let longest = ways.len() - 1;
    let whole = longest == text.len() && ways[longest].iter().any(may_end);
    let read = &text[..longest];
    let starts = (0..=longest).filter(|place| may_start_a_term(&ways[*place])).collect::<Vec<usize>>();
    let all = |limit, places: Vec<usize>| places.into_iter().map(move |place| (limit, place));
    let limits = all(Limit::Brackets, brackets_inside_32(read))
        .chain(all(Limit::Number, numbers_past_their_range(read, propositions)))
        .chain(all(Limit::Terms, starts.into_iter().skip(64).collect()))
        .chain(all(Limit::Interval, crossed_intervals(read)))
        .collect();
    Parsed { longest, whole, limits }
}

impl Parsed {
    /// Whether the text is a rule; else 13 or 14: "Of 13 and 14 the earliest byte wins, 14 at a tie."
    pub fn verdict(&self) -> Result<(), Refusal> {
        let too_much = self.limits.iter().map(|(_, place)| (*place, RULE_LIMIT));
        let unreadable = (!self.whole).then_some((self.longest, RULE_SYNTAX));
        let first = too_much.chain(unreadable).min_by_key(|(place, number)| (*place, *number == RULE_SYNTAX));
        first.map_or(Ok(()), |(place, number)| refuse(number, place))
    }
}

/// A term would start where the beginning up to there, followed by "m", can go on: nothing else has an "m".
fn may_start_a_term(rests: &[Rest]) -> bool {
    rests.iter().any(|rest| !after(rest, b'm').is_empty())
}

fn count(bytes: &[u8], byte: u8) -> usize {
    bytes.iter().filter(|one| **one == byte).count()
}

/// Each "(" before which at least 32 were opened and not closed.
fn brackets_inside_32(read: &[u8]) -> Vec<usize> {
    let open = |place: usize| count(&read[..place], b'(') - count(&read[..place], b')');
    (0..read.len()).filter(|place| read[*place] == b'(' && open(*place) >= 32).collect()
}

/// The first digit of each number that is not below the propositions, after an "m", or is above 1,023, elsewhere.
fn numbers_past_their_range(read: &[u8], propositions: usize) -> Vec<usize> {
    let is_digit = |place: usize| read.get(place).is_some_and(u8::is_ascii_digit);
    let firsts = (1..read.len()).filter(|place| is_digit(*place) && !is_digit(place - 1));
    let is_past = |first: &usize| {
        let end = (*first..).find(|place| !is_digit(*place)).expect("the text ends");
        let number = String::from_utf8_lossy(&read[*first..end]).to_string();
        let highest = if read[first - 1] == b'm' { propositions - 1 } else { 1023 };
        is_larger(&number, &highest.to_string())
    };
    firsts.filter(is_past).collect()
}

/// The "[" of each interval with its "]" and a above b.
fn crossed_intervals(read: &[u8]) -> Vec<usize> {
    let is_crossed = |place: &usize| {
        let inside = String::from_utf8_lossy(&read[place + 1..]).to_string();
        let ends = inside.split_once(']').and_then(|(ends, _)| ends.split_once(','));
        ends.is_some_and(|(lower, upper)| is_larger(lower, upper))
    };
    (0..read.len()).filter(|place| read[*place] == b'[').filter(is_crossed).collect()
}

/// Of numbers without leading zeros the longer is the larger, and of two equally long ones that with the larger digit at
/// the first place where they differ.
fn is_larger(one: &str, other: &str) -> bool {
    (one.len(), one) > (other.len(), other)
}
