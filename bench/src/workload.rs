//! What is measured: policies of chosen sizes, and records that know everything, nothing or bunches of a random trace.

use oracle::generate::{encode_message, encode_policy, Random};
use oracle::knowledge::{origin_of, NOT_KNOWN};
use oracle::message::{Event, Message};
use oracle::policy::{Formula, Policy, Span, Subformula, Temporal, HIGHEST_BOUND};
use oracle::Buffers;
use zankezurt::State;

/// A take: the policy's and message's bytes, and the lent buffers.
pub struct Workload {
    pub policy: Policy,
    pub encoded: Vec<u8>,
    pub message: Vec<u8>,
    pub buffers: Buffers,
}

/// The buffers, as the calls want them.
pub fn lent(buffers: &mut Buffers) -> State<'_> {
    let Buffers { numbers, facts, valuation, verdicts, origin, extent } = buffers;
    State { numbers, facts, valuation, verdicts, origin, extent }
}

/// How much of the random trace the record knows.
#[derive(Clone, Copy, Debug, PartialEq, Eq)]
pub enum Record {
    /// Every sequence number and every fact.
    Full,
    /// Nothing: a fresh record.
    Empty,
    /// Eight places of each run and eight minutes' facts, again every hour: "most stations report in bunches".
    Bunched,
}

impl Record {
    pub const ALL: [Record; 3] = [Record::Full, Record::Empty, Record::Bunched];

    pub fn name(self) -> &'static str {
        match self {
            Record::Full => "full",
            Record::Empty => "empty",
            Record::Bunched => "bunched",
        }
    }

    /// Makes this record of a full one.
    fn thin(self, policy: &Policy, buffers: &mut Buffers) {
        match self {
            Record::Full => (),
            Record::Empty => buffers.forget(policy),
            Record::Bunched => forget_between_bunches(policy, buffers),
        }
    }
}

/// Places and minutes of a bunch, and from one bunch's start to the next's.
const BUNCH: usize = 8;
const HOUR: usize = 60;

/// Which kinds the lines have that are no propositions.
#[derive(Clone, Copy, Debug, PartialEq, Eq)]
pub enum Kinds {
    /// Since and until by turns.
    Primitive,
    /// And, implies, once, historically, eventually and always by turns.
    Abbreviated,
}

impl Kinds {
    pub const ALL: [Kinds; 2] = [Kinds::Primitive, Kinds::Abbreviated];

    pub fn name(self) -> &'static str {
        match self {
            Kinds::Primitive => "primitive",
            Kinds::Abbreviated => "abbreviated",
        }
    }

    /// The line with this number, of these parts.
    fn formula(self, line: usize, parts: Temporal) -> Formula {
        match self {
            Kinds::Primitive => primitive(line, parts),
            Kinds::Abbreviated => abbreviated(line, parts),
        }
    }
}

fn primitive(line: usize, parts: Temporal) -> Formula {
    if line.is_multiple_of(2) {
        Formula::Since(parts)
    } else {
        Formula::Until(parts)
    }
}

fn abbreviated(line: usize, Temporal { first, second, lower, upper }: Temporal) -> Formula {
    let span = Span { first, lower, upper };
    match line % 6 {
        0 => Formula::And(first, second),
        1 => Formula::Implies(first, second),
        2 => Formula::Once(span),
        3 => Formula::Historically(span),
        4 => Formula::Eventually(span),
        _ => Formula::Always(span),
    }
}

#[derive(Clone, Copy)]
pub struct Shape {
    pub propositions: usize,
    pub components: usize,
    pub minutes: usize,
    pub subformulas: usize,
    /// The most rules; they are the last lines.
    pub rules: usize,
    /// A proposition stands in one of so many lines.
    pub spacing: usize,
    /// What stands in the others.
    pub kinds: Kinds,
}

/// The highest bound of a short interval.
const SHORT: usize = 24;

pub const LARGEST: Shape = Shape {
    propositions: 32,
    components: 16,
    minutes: 1024,
    subformulas: 64,
    rules: 8,
    spacing: 8,
    kinds: Kinds::Primitive,
};

/// A policy of a shape: some propositions, and the kinds by turns in the other lines, over random earlier ones. Half of the intervals are
/// short, so that rows vary; the others reach up to the highest bound.
fn policy(random: &mut Random, shape: &Shape) -> Policy {
    let first_rule = shape.subformulas - shape.subformulas.min(shape.rules);
    let subformulas = (0..shape.subformulas)
        .map(|line| Subformula { formula: formula(random, line, shape), rule: line >= first_rule })
        .collect();
    Policy { propositions: shape.propositions, components: shape.components, minutes: shape.minutes, subformulas }
}

fn formula(random: &mut Random, line: usize, shape: &Shape) -> Formula {
    if line.is_multiple_of(shape.spacing) {
        return Formula::Proposition(random.below(shape.propositions));
    }
    let highest = if random.once_in(2) { SHORT } else { HIGHEST_BOUND };
    let lower = random.below(highest / 2);
    let upper = random.between(lower, highest);
    let parts = Temporal { first: random.below(line), second: random.below(line), lower, upper };
    shape.kinds.formula(line, parts)
}

/// A full record: every sequence number and every fact is known. A minute is a time point about every other time.
fn full_record(random: &mut Random, policy: &Policy) -> Buffers {
    let mut buffers = Buffers::sized(policy);
    for run in buffers.numbers.chunks_exact_mut(policy.minutes + 1) {
        run[0] = 0;
        for place in 1..run.len() {
            let observed = random.once_in((policy.components * 3 / 2).max(2));
            run[place] = run[place - 1] + observed as u16;
        }
    }
    let all = ((1u64 << policy.propositions) - 1) as u32;
    for words in buffers.facts.chunks_exact_mut(2) {
        words[0] = all;
        words[1] = random.word() as u32 & all;
    }
    buffers
}

fn forget_between_bunches(policy: &Policy, buffers: &mut Buffers) {
    let known = |place: usize| place % HOUR < BUNCH;
    for run in buffers.numbers.chunks_exact_mut(policy.minutes + 1) {
        run.iter_mut().enumerate().filter(|(place, _)| !known(*place)).for_each(|(_, cell)| *cell = NOT_KNOWN);
    }
    let words = buffers.facts.chunks_exact_mut(2).enumerate();
    words.filter(|(minute, _)| !known(*minute)).for_each(|(_, words)| words.fill(0));
}

/// An alive message of the first component that says again the last number that the record knows of it.
fn known_message(policy: &Policy, buffers: &Buffers) -> Vec<u8> {
    let known = buffers.known_numbers(policy, 0);
    let (minute, number) = known[known.len() - 1];
    encode_message(&Message { component: 0, event: Event::Alive { minute, number } })
}

/// So many alive messages that say again what a full record knows, of each component in turn and from the last minute back.
pub fn known_messages(policy: &Policy, buffers: &Buffers, count: usize) -> Vec<Vec<u8>> {
    let message = |i: usize| {
        let (component, minute) = (i % policy.components, policy.minutes - i % policy.minutes);
        let number = buffers.numbers[component * (policy.minutes + 1) + minute] as usize;
        Message { component, event: Event::Alive { minute, number } }
    };
    (0..count).map(|i| encode_message(&message(i))).collect()
}

const SEED: u64 = 2_026;

impl Workload {
    pub fn new(shape: &Shape, record: Record) -> Workload {
        let mut random = Random::new(SEED);
        let policy = policy(&mut random, shape);
        Workload::with(&mut random, policy, record)
    }

    /// A take under this policy; policies of the same sizes have the same record.
    pub fn under(policy: Policy, record: Record) -> Workload {
        Workload::with(&mut Random::new(SEED), policy, record)
    }

    fn with(random: &mut Random, policy: Policy, record: Record) -> Workload {
        let mut buffers = full_record(random, &policy);
        record.thin(&policy, &mut buffers);
        let message = known_message(&policy, &buffers);
        let encoded = encode_policy(&policy);
        (buffers.origin, buffers.extent) = origin_of(&encoded);
        Workload { encoded, policy, message, buffers }
    }
}
