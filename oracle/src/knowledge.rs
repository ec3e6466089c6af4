//! The knowledge (record of document 01) in the lent buffers: when it is sound, what is known of each minute, and when
//! a message conflicts with it.

use crate::message::{Fixed, Message};
use crate::policy::{Policy, MOST_BYTES};
use crate::truth::Truth;
use std::collections::HashMap;

/// The cell of a sequence number that is not known.
pub const NOT_KNOWN: u16 = 65535;

/// The five lent buffers and the lent number. Sequence numbers, facts, origin and extent are the knowledge.
#[derive(Clone, Debug, Default, PartialEq, Eq)]
pub struct Buffers {
    /// Counts: "stations times (M + 1), one run per station, the first place standing for before minute 0".
    pub numbers: Vec<u16>,
    /// "Two per minute, known marks and then their values."
    pub facts: Vec<u32>,
    /// Work sheet: "lines times M (0 unknown, 1 true, 2 false)".
    pub valuation: Vec<u8>,
    /// Verdict sheet: "rules times M (0 blank, 1 kept, 2 broken)".
    pub verdicts: Vec<u8>,
    /// "A lent buffer of 517 bytes holding the card's bytes, then zeros": the policy that the state was opened under.
    pub origin: Vec<u8>,
    /// "One number with the card's length": how many bytes that policy has.
    pub extent: u16,
}

impl Buffers {
    /// Buffers of the exact sizes, every cell 0: not a fresh record, which opening makes.
    pub fn sized(policy: &Policy) -> Buffers {
        Buffers {
            numbers: vec![0; policy.components * (policy.minutes + 1)],
            facts: vec![0; 2 * policy.minutes],
            valuation: vec![0; policy.subformulas.len() * policy.minutes],
            verdicts: vec![0; verdicts_size(policy)],
            origin: vec![0; MOST_BYTES],
            extent: 0,
        }
    }

    /// Whether every buffer is of its exact size.
    pub fn fit(&self, policy: &Policy) -> bool {
        let exact = Buffers::sized(policy);
        self.numbers.len() == exact.numbers.len()
            && self.facts.len() == exact.facts.len()
            && self.valuation.len() == exact.valuation.len()
            && self.verdicts.len() == exact.verdicts.len()
            && self.origin.len() == exact.origin.len()
    }

    /// The component's run: its cells, place by place.
    pub fn run(&self, policy: &Policy, component: usize) -> &[u16] {
        let places = policy.minutes + 1;
        &self.numbers[component * places..(component + 1) * places]
    }

    /// The component's sequence number at a place, if known.
    pub fn number(&self, policy: &Policy, component: usize, place: usize) -> Option<usize> {
        let cell = self.run(policy, component)[place];
        (cell != NOT_KNOWN).then_some(cell as usize)
    }

    /// The proposition's value at a minute, if known.
    pub fn fact(&self, minute: usize, proposition: usize) -> Option<bool> {
        let known = self.facts[2 * minute] >> proposition & 1 == 1;
        let value = self.facts[2 * minute + 1] >> proposition & 1 == 1;
        known.then_some(value)
    }

    /// The known sequence numbers of a component, each with its place.
    pub fn known_numbers(&self, policy: &Policy, component: usize) -> Vec<(usize, usize)> {
        (0..=policy.minutes).filter_map(|place| Some((place, self.number(policy, component, place)?))).collect()
    }

    /// Makes a fresh record: "only each first count is known, as 0; no facts".
    pub fn forget(&mut self, policy: &Policy) {
        self.numbers.fill(NOT_KNOWN);
        for component in 0..policy.components {
            self.numbers[component * (policy.minutes + 1)] = 0;
        }
        self.facts.fill(0);
    }

    /// "An accepted slip makes known in the record all that it fixes, at the values it fixes, and changes nothing else
    /// in counts or facts."
    pub fn learn(&mut self, policy: &Policy, message: &Message) {
        let fixed = message.fixes();
        for (place, number) in fixed.numbers {
            self.numbers[message.component * (policy.minutes + 1) + place] = number as u16;
        }
        for (minute, proposition, value) in fixed.facts {
            let bit = 1 << proposition;
            self.facts[2 * minute] |= bit;
            if value {
                self.facts[2 * minute + 1] |= bit;
            } else {
                self.facts[2 * minute + 1] &= !bit;
            }
        }
    }
}

/// What opening a policy of these bytes, at most 517, writes into origin and extent: "the card's bytes, then zeros", and
/// "the card's length".
pub fn origin_of(policy: &[u8]) -> (Vec<u8>, u16) {
    let zeros = vec![0; MOST_BYTES - policy.len()];
    ([policy, &zeros].concat(), policy.len() as u16)
}

/// The exact size of the verdicts.
pub fn verdicts_size(policy: &Policy) -> usize {
    policy.rules().len() * policy.minutes
}

/// "A record is sound if every first count is 0, any two known counts of one station at places a < b satisfy
/// 0 ≤ later − earlier ≤ b − a, no value bit is 1 where its mark isn't known, and no mark beyond the card is known."
pub fn sound(policy: &Policy, buffers: &Buffers) -> bool {
    let numbers = (0..policy.components).all(|component| {
        buffers.number(policy, component, 0) == Some(0) && steps_between(&buffers.known_numbers(policy, component))
    });
    let facts = (0..policy.minutes).all(|minute| {
        (0..u32::BITS as usize).all(|bit| {
            let known = buffers.facts[2 * minute] >> bit & 1 == 1;
            let value = buffers.facts[2 * minute + 1] >> bit & 1 == 1;
            (known || !value) && (bit < policy.propositions || !known)
        })
    });
    numbers && facts
}

/// Whether any two of these (place, sequence number) pairs, at places a ≤ b, satisfy 0 ≤ later − earlier ≤ b − a. Two
/// at the same place are then equal.
fn steps_between(numbers: &[(usize, usize)]) -> bool {
    numbers.iter().all(|(a, earlier)| {
        numbers.iter().filter(|(b, _)| a <= b).all(|(b, later)| earlier <= later && later - earlier <= b - a)
    })
}

/// Clash: "no shift fits record and slip". The knowledge is sound and the message well-formed.
///
/// The known numbers of the message's component and those that the message fixes are put together. There is a conflict
/// exactly if two of them at places a ≤ b do not satisfy 0 ≤ later − earlier ≤ b − a, or the message fixes a fact
/// against a known one. Why this is "no shift fits":
///
/// - In any trace a component's number grows from place a to place b by its observations at the minutes a to b − 1, at
///   most one each, so by 0 to b − a; and a trace gives a proposition one value at a minute. Such a pair or such a fact
///   therefore rules every trace out.
/// - Otherwise take, for each component, its known (and now fixed) places in order; the first is place 0, with 0. From
///   each, at (a, x), to the next, at (b, y), let it observe in the first y − x of the minutes a to b − 1, which
///   are enough, and after the last place never. Components do not bear on each other, and soundness gives the same
///   for those that sent nothing. Let each proposition have its known or fixed value, and be false elsewhere. This
///   trace agrees with all.
///
/// A fixed number of 65535, which no cell could hold as known, is always a conflict: place 0 holds 0 and is at most
/// 1,024 places away. `brute` checks all this against every trace of tiny policies.
pub fn conflict(policy: &Policy, buffers: &Buffers, message: &Message) -> bool {
    let Fixed { numbers, facts } = message.fixes();
    let known = buffers.known_numbers(policy, message.component);
    let together = [known, numbers].concat();
    let against =
        |(minute, proposition, value): &(usize, usize, bool)| buffers.fact(*minute, *proposition) == Some(!*value);
    !steps_between(&together) || facts.iter().any(against)
}

/// Request 4 of document 02: "From now on a minute t is known busy if some station has known counts at some a < t and
/// b ≥ t that differ by exactly b − a."
pub fn known_busy(policy: &Policy, buffers: &Buffers, minute: usize) -> bool {
    (0..policy.components).any(|component| full_in(buffers.run(policy, component), minute))
}

/// "It is known quiet if every station has equal known counts at some a < t and some b ≥ t."
pub fn known_quiet(policy: &Policy, buffers: &Buffers, minute: usize) -> bool {
    (0..policy.components).all(|component| quiet_in(buffers.run(policy, component), minute))
}

/// What request 4 asks of one component, over its run. Minute a is place a + 1, so that a < t are the places 0 to t,
/// and b ≥ t those from t + 1 to M; two places are as far apart as their minutes. The later number is to be the larger:
/// in a sound record it is never the smaller.
fn full_in(run: &[u16], minute: usize) -> bool {
    let known = |place: &usize| run[*place] != NOT_KNOWN;
    let full = |a: usize, b: usize| usize::from(run[b]) == usize::from(run[a]) + (b - a);
    (0..=minute).filter(known).any(|a| (minute + 1..run.len()).filter(known).any(|b| full(a, b)))
}

/// What "known quiet" asks of one component, over its run, with the places as above. A number that is equal to a known
/// one is known.
fn quiet_in(run: &[u16], minute: usize) -> bool {
    let known = |place: &usize| run[*place] != NOT_KNOWN;
    (0..=minute).filter(known).any(|a| (minute + 1..run.len()).any(|b| run[a] == run[b]))
}

/// What request 2 of document 02 has a search answer: "whether a minute is quiet for a station", and between which
/// places it looked; and from request 4 on, whether the minute is busy by the station.
#[derive(Clone, Copy, Debug, PartialEq, Eq)]
pub struct Search {
    pub quiet: bool,
    /// "A full run of counts means busy minutes."
    pub full: bool,
    /// The place of "the nearest known count before the minute".
    pub before: Option<usize>,
    /// The place of "the nearest at or after it".
    pub after: Option<usize>,
    /// "The number of places read."
    pub reads: usize,
}

/// A search of one component's run for a minute, which is at most M. "The answer keeps its meaning": any a and b will
/// do, and the two nearest places bear only on how many are read.
///
/// "Exactly those from the nearest known count before the minute to the nearest at or after it, both counted, or to the
/// run's end if there is none." The papers say nothing of a run in which none is known before the minute, as in no
/// sound record: there the places are read from the run's start.
pub fn search(run: &[u16], minute: usize) -> Search {
    let known = |place: &usize| run[*place] != NOT_KNOWN;
    let before = (0..=minute).filter(known).max();
    let after = (minute + 1..run.len()).filter(known).min();
    let (first, last) = (before.unwrap_or(0), after.unwrap_or(run.len() - 1));
    let (quiet, full) = (quiet_in(run, minute), full_in(run, minute));
    Search { quiet, full, before, after, reads: (first..=last).count() }
}

/// e of "The reading" at every minute of the policy: true, false or unknown for known busy, known quiet or open.
pub fn time_points(policy: &Policy, buffers: &Buffers) -> Vec<Truth> {
    let busy = |minute| known_busy(policy, buffers, minute);
    let quiet = |minute| known_quiet(policy, buffers, minute);
    (0..policy.minutes).map(|minute| time_point(busy(minute), quiet(minute))).collect()
}

fn time_point(busy: bool, quiet: bool) -> Truth {
    match (busy, quiet) {
        (true, _) => Truth::True,
        (false, true) => Truth::False,
        (false, false) => Truth::Unknown,
    }
}

/// The same as `time_points`, for large policies. Numbers at places a < b differ by exactly b − a if number less place
/// is the same at both: full runs are told by it as level ones are by the number. M is added so that it is not below 0.
pub fn time_points_of_many(policy: &Policy, buffers: &Buffers) -> Vec<Truth> {
    let mut points = vec![(false, true); policy.minutes];
    for component in 0..policy.components {
        let known = buffers.known_numbers(policy, component);
        let full = between_equals(policy.minutes, &known, |place, number| policy.minutes + number - place);
        let level = between_equals(policy.minutes, &known, |_, number| number);
        for (minute, (busy, quiet)) in points.iter_mut().enumerate() {
            *busy |= full[minute];
            *quiet &= level[minute];
        }
    }
    points.into_iter().map(|(busy, quiet)| time_point(busy, quiet)).collect()
}

/// For each minute, whether `value` is the same at a place before it and at one at or after it, of these (place,
/// number) pairs in their order. The last place with a value is looked up only once for each place before.
fn between_equals(minutes: usize, known: &[(usize, usize)], value: impl Fn(usize, usize) -> usize) -> Vec<bool> {
    let last: HashMap<usize, usize> = known.iter().map(|(place, number)| (value(*place, *number), *place)).collect();
    let mut between = vec![false; minutes];
    for (place, number) in known {
        between[*place..last[&value(*place, *number)]].fill(true);
    }
    between
}
