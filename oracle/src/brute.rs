//! Every trace of a tiny policy, and what must hold over all of them.
//!
//! This stands on document 01's words for "could have sent" and "fits" and on the two-valued reading alone. It knows
//! nothing of soundness, conflicts, known minutes or three truth values.

use crate::generate::encode_policy;
use crate::knowledge::{known_busy, known_quiet, sound, Buffers};
use crate::message;
use crate::monitor::{open, receive, Answer};
use crate::policy::{Formula, Policy, Span, Temporal};
use crate::reading::{standing, two_valued_verdicts};
use crate::refusal::{Refusal, CONFLICT, CORRUPT_KNOWLEDGE, OTHER_POLICY};
use crate::trace::Trace;

/// A tiny policy with every trace that ends by a minute at, or a little past, its last.
pub struct Bench {
    pub policy: Policy,
    pub bytes: Vec<u8>,
    pub traces: Vec<Trace>,
    /// The two-valued verdicts in each trace.
    verdicts: Vec<Vec<u8>>,
}

impl Bench {
    /// Every trace of the policy that runs at most `past` minutes past its last.
    pub fn new(policy: Policy, past: usize) -> Bench {
        let traces = every_trace(&policy, policy.minutes + past);
        let verdicts = traces.iter().map(|trace| two_valued_verdicts(&policy, trace)).collect();
        Bench { bytes: encode_policy(&policy), policy, traces, verdicts }
    }

    /// The numbers of all traces.
    pub fn all(&self) -> Vec<usize> {
        (0..self.traces.len()).collect()
    }

    /// Opens and offers the messages one by one. Each must be accepted exactly if it is well-formed and some trace
    /// could have sent it and all accepted before; a refusal must change nothing, and a verdict shown must never
    /// change. What is left in the buffers is given back.
    pub fn run(&self, offers: &[Vec<u8>]) -> Buffers {
        let mut buffers = Buffers::sized(&self.policy);
        assert_eq!(open(&self.bytes, &mut buffers), Answer::Done);
        let mut left = self.all();
        self.check(&left, &buffers);
        for offer in offers {
            let before = buffers.clone();
            left = self.step(offer, left, &mut buffers);
            assert!(kept_up(&before.verdicts, &buffers.verdicts), "a verdict changed");
        }
        buffers
    }

    /// Offers one message to a record with which the traces in `left` agree, and no others. Gives back those that agree
    /// with the record afterwards.
    pub fn step(&self, offer: &[u8], left: Vec<usize>, buffers: &mut Buffers) -> Vec<usize> {
        let before = buffers.clone();
        let answer = receive(&self.bytes, offer, buffers);
        let admitting = match message::read(&self.policy, offer) {
            Err(refusal) => {
                assert_eq!((answer, &*buffers), (Answer::Refused(refusal), &before));
                return left;
            }
            Ok(message) => {
                left.iter().copied().filter(|trace| self.traces[*trace].admits(&message)).collect::<Vec<_>>()
            }
        };
        if admitting.is_empty() {
            let clash = Answer::Refused(Refusal { number: CONFLICT, place: 0 });
            assert_eq!((answer, &*buffers), (clash, &before));
            return left;
        }
        assert_eq!(answer, Answer::Received(standing(&buffers.verdicts)));
        self.check(&admitting, buffers);
        admitting
    }

    /// In every one of these traces, which are those that agree with the record, each verdict shown is the two-valued
    /// one; and what is known of each minute is what they tell.
    fn check(&self, left: &[usize], buffers: &Buffers) {
        for trace in left {
            assert!(kept_up(&buffers.verdicts, &self.verdicts[*trace]), "a verdict that is not the trace's");
        }
        self.check_points(left, buffers);
    }

    /// Request 4 of document 02: "In a sound record a minute is then known busy exactly when it is busy in every shift
    /// that fits the record, and known quiet exactly when it is quiet in all of them". `left` are all the traces that
    /// agree with the record, but for those that run longer; up to M each of those is like one of these.
    fn check_points(&self, left: &[usize], buffers: &Buffers) {
        for minute in 0..self.policy.minutes {
            let busy = |trace: &usize| self.traces[*trace].time_point(minute as i64);
            let known = (known_busy(&self.policy, buffers, minute), known_quiet(&self.policy, buffers, minute));
            assert_eq!(known, (left.iter().all(busy), !left.iter().any(busy)), "{minute} {:?}", buffers.numbers);
        }
    }

    /// Offers a message to any knowledge, sound or not, and opened under the policy or not. Without value bits or
    /// propositions that no fact can have, it is sound exactly if some trace agrees with it and every first number is
    /// known. What sound knowledge tells of each minute is what those traces tell.
    pub fn run_from(&self, offer: &[u8], mut buffers: Buffers) {
        let before = buffers.clone();
        let agreeing = |trace: &usize| self.traces[*trace].agrees(&self.policy, &buffers);
        let left: Vec<usize> = self.all().into_iter().filter(agreeing).collect();
        let expected = !left.is_empty() && first_numbers_known(&self.policy, &buffers) && tidy(&self.policy, &buffers);
        assert_eq!(sound(&self.policy, &buffers), expected);
        if expected {
            self.check_points(&left, &buffers);
        }
        let own = opened_under(&self.bytes, &buffers);
        if own && expected {
            self.step(offer, left, &mut buffers);
        } else {
            let number = if own { CORRUPT_KNOWLEDGE } else { OTHER_POLICY };
            let refused = Answer::Refused(Refusal { number, place: 0 });
            assert_eq!((receive(&self.bytes, offer, &mut buffers), buffers), (refused, before));
        }
    }

    /// The reading of document 01 and the textbook's, of 001, section 2, give the same verdicts in every trace.
    pub fn check_textbook(&self) {
        for (trace, verdicts) in self.traces.iter().zip(&self.verdicts) {
            assert_eq!(*verdicts, textbook_verdicts(&self.policy, trace));
        }
    }
}

/// Whether every verdict that stands in the first is the same in the second.
fn kept_up(earlier: &[u8], later: &[u8]) -> bool {
    earlier.iter().zip(later).all(|(earlier, later)| *earlier == 0 || earlier == later)
}

/// Whether the policy's bytes, then zeros, and its length stand in the buffers.
fn opened_under(policy: &[u8], buffers: &Buffers) -> bool {
    let (bytes, zeros) = buffers.origin.split_at(policy.len());
    usize::from(buffers.extent) == policy.len() && bytes == policy && zeros.iter().all(|byte| *byte == 0)
}

fn first_numbers_known(policy: &Policy, buffers: &Buffers) -> bool {
    (0..policy.components).all(|component| buffers.number(policy, component, 0).is_some())
}

/// No value bit without its proposition known, and no proposition known that the policy does not have.
fn tidy(policy: &Policy, buffers: &Buffers) -> bool {
    let beyond = u32::MAX.checked_shl(policy.propositions as u32).unwrap_or(0);
    buffers.facts.chunks(2).all(|fact| fact[1] & !fact[0] == 0 && fact[0] & beyond == 0)
}

/// Every trace of this length: every bit pattern of observations and values.
pub fn every_trace(policy: &Policy, length: usize) -> Vec<Trace> {
    let observation_bits = policy.components * length;
    let bits = observation_bits + policy.propositions * length;
    let trace = |pattern: usize| Trace {
        observed: (0..policy.components)
            .map(|component| (0..length).map(|minute| pattern >> (component * length + minute) & 1 == 1).collect())
            .collect(),
        values: (0..length)
            .map(|minute| (pattern >> (observation_bits + minute * policy.propositions)) as u32)
            .map(|values| values & ((1 << policy.propositions) - 1))
            .collect(),
    };
    (0..1 << bits).map(trace).collect()
}

/// The verdicts by 001, section 2: a trace is the list of its time points, and since and until speak of those alone. At
/// time point i, first since second if there is a j ≤ i whose distance in minutes is in the interval, with second at j
/// and first at all k with j < k ≤ i; until likewise, with j ≥ i and i ≤ k < j.
///
/// Once: first at some j ≤ i whose distance is in the interval; historically: at all of them; eventually and always
/// likewise, with j ≥ i. These are read as they stand here and not by their abbreviations.
pub fn textbook_verdicts(policy: &Policy, trace: &Trace) -> Vec<u8> {
    let points: Vec<usize> = (0..trace.length()).filter(|minute| trace.time_point(*minute as i64)).collect();
    // The time points at and before i, or at and after it, that are from lower to upper minutes away.
    let behind = |i: usize, Span { lower, upper, .. }: Span| {
        (0..=i).filter(|j| (lower..=upper).contains(&(points[i] - points[*j]))).collect::<Vec<usize>>()
    };
    let ahead = |i: usize, Span { lower, upper, .. }: Span| {
        (i..points.len()).filter(|j| (lower..=upper).contains(&(points[*j] - points[i]))).collect::<Vec<usize>>()
    };
    let mut rows: Vec<Vec<bool>> = Vec::new();
    for subformula in &policy.subformulas {
        let value = |i: usize| match subformula.formula {
            Formula::True => true,
            Formula::Proposition(k) => trace.value(points[i], k),
            Formula::Not(first) => !rows[first][i],
            Formula::Or(first, second) => rows[first][i] || rows[second][i],
            Formula::Since(Temporal { first, second, lower, upper }) => (0..=i).any(|j| {
                let distance = points[i] - points[j];
                lower <= distance && distance <= upper && rows[second][j] && (j + 1..=i).all(|k| rows[first][k])
            }),
            Formula::Until(Temporal { first, second, lower, upper }) => (i..points.len()).any(|j| {
                let distance = points[j] - points[i];
                lower <= distance && distance <= upper && rows[second][j] && (i..j).all(|k| rows[first][k])
            }),
            Formula::And(first, second) => rows[first][i] && rows[second][i],
            Formula::Implies(first, second) if rows[first][i] => rows[second][i],
            Formula::Implies(_, _) => true,
            Formula::Once(span) => behind(i, span).into_iter().any(|j| rows[span.first][j]),
            Formula::Historically(span) => behind(i, span).into_iter().all(|j| rows[span.first][j]),
            Formula::Eventually(span) => ahead(i, span).into_iter().any(|j| rows[span.first][j]),
            Formula::Always(span) => ahead(i, span).into_iter().all(|j| rows[span.first][j]),
        };
        let row = (0..points.len()).map(value).collect();
        rows.push(row);
    }
    let verdict = |rule: usize, minute: usize| match points.iter().position(|point| *point == minute) {
        None => 0,
        Some(i) if rows[rule][i] => 1,
        Some(_) => 2,
    };
    let cells = policy.rules().into_iter().flat_map(|rule| (0..policy.minutes).map(move |minute| (rule, minute)));
    cells.map(|(rule, minute)| verdict(rule, minute)).collect()
}
