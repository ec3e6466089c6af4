//! Request 6 of document 02: "One fact, shared by all six, shows that replacing such a line by its abbreviation gives the
//! same row." Here by cases: the archive reads a policy with lines of the six newer kinds as it reads the one in which
//! they are written out, and both as the oracle does.

use conformance::inputs::{self, Size};
use conformance::rounds;
use conformance::{open, receive, verdicts_after};
use oracle::generate;
use oracle::knowledge::{origin_of, sound, NOT_KNOWN};
use oracle::policy::Formula::*;
use oracle::policy::{Formula, Policy, Span, Subformula, MOST_SUBFORMULAS};
use oracle::written_out::{is_abbreviation, written_out, WrittenOut};
use oracle::{Answer, Buffers};

/// A policy and the same with lines written out, each with its bytes.
struct Pair {
    policy: Policy,
    bytes: Vec<u8>,
    other: WrittenOut,
    other_bytes: Vec<u8>,
}

impl Pair {
    /// With these lines written out; None if that is more than a policy can have.
    fn new(policy: &Policy, is_written_out: impl Fn(usize) -> bool) -> Option<Pair> {
        let other = written_out(policy, is_written_out);
        let (bytes, other_bytes) = (generate::encode_policy(policy), generate::encode_policy(&other.policy));
        let fits = other.policy.subformulas.len() <= MOST_SUBFORMULAS;
        fits.then(|| Pair { policy: policy.clone(), bytes, other, other_bytes })
    }

    /// Opens, whatever the buffers hold.
    fn open(&self, mut buffers: Buffers, mut other: Buffers) -> (Buffers, Buffers) {
        assert_eq!(open(&self.bytes, &mut buffers), Answer::Done);
        assert_eq!(open(&self.other_bytes, &mut other), Answer::Done);
        self.compare(&buffers, &other);
        (buffers, other)
    }

    /// Offers the bytes under both policies, in buffers that are alike.
    fn take(&self, offer: &[u8], buffers: &mut Buffers, other: &mut Buffers) -> Answer {
        let answer = receive(&self.bytes, offer, buffers);
        assert_eq!(answer, receive(&self.other_bytes, offer, other), "{offer:?} under {:?}", self.bytes);
        self.compare(buffers, other);
        answer
    }

    /// The record and the verdicts are the same, and each line has its row.
    fn compare(&self, buffers: &Buffers, other: &Buffers) {
        let same =
            buffers.numbers == other.numbers && buffers.facts == other.facts && buffers.verdicts == other.verdicts;
        assert!(same, "{buffers:?}\n{other:?}\npolicy {:?}", self.bytes);
        let minutes = self.policy.minutes;
        for (line, number) in self.other.numbers.iter().enumerate() {
            let row = &buffers.valuation[line * minutes..][..minutes];
            let written = &other.valuation[number * minutes..][..minutes];
            assert_eq!(row, written, "line {line}\n{buffers:?}\npolicy {:?}", self.bytes);
        }
    }
}

/// What each job does: how many lists on policies of which size, and the most messages of a trace in one.
const KINDS: [(Size, usize, usize); 4] =
    [(Size::Tiny, 300, 8), (Size::Small, 200, 14), (Size::Medium, 15, 14), (Size::Long, 1, 6)];

#[test]
fn a_line_is_read_as_it_is_written_out() {
    let seen = rounds::run(9_700_000, 8 * KINDS.len(), |number, random, seen| {
        let (size, lists, most) = KINDS[number % KINDS.len()];
        for _ in 0..lists {
            let policy = inputs::policy(random, size);
            let lines = (0..policy.subformulas.len()).filter(|line| is_abbreviation(policy.subformulas[*line].formula));
            let lines: Vec<usize> = lines.collect();
            if lines.is_empty() {
                continue;
            }
            let line = random.pick(&lines);
            let all = random.once_in(2);
            let Some(pair) = Pair::new(&policy, |number| all || number == line) else {
                seen.one("too many lines");
                continue;
            };
            let buffers = inputs::filled_buffers(random, &policy);
            let (mut buffers, mut other) = pair.open(buffers, inputs::filled_buffers(random, &pair.other.policy));
            for offer in inputs::offers(random, &policy, most) {
                seen.answer("receive", pair.take(&offer, &mut buffers, &mut other));
            }
            seen.verdicts(&buffers.verdicts);
            seen.kinds(&policy);
            seen.one(&format!("{size:?} lists"));
            seen.add("all lines", usize::from(all));
        }
    });
    for what in ["receive accepted", "all lines", "kept", "broken"] {
        seen.at_least(1_000, what);
    }
    for (size, ..) in KINDS {
        seen.at_least(6, &format!("{size:?} lists"));
    }
    seen.every_kind_at_least(500);
}

/// Every list of one item of each of these.
fn every<T: Copy>(choices: &[Vec<T>]) -> Vec<Vec<T>> {
    choices.iter().fold(vec![vec![]], |lists, items| {
        lists.iter().flat_map(|list| items.iter().map(move |item| [&list[..], &[*item]].concat())).collect()
    })
}

/// Every sound record of a policy with one component.
fn every_record(policy: &Policy) -> Vec<Buffers> {
    let (minutes, propositions) = (policy.minutes, policy.propositions);
    let number: Vec<u16> = (0..=minutes as u16).chain([NOT_KNOWN]).collect();
    let all = (1 << propositions) - 1;
    let words: Vec<[u32; 2]> = (0..=all).flat_map(|known| (0..=all).map(move |values| [known, values])).collect();
    let words: Vec<[u32; 2]> = words.into_iter().filter(|[known, values]| values & !known == 0).collect();
    let (origin, extent) = origin_of(&generate::encode_policy(policy));
    let mut records = Vec::new();
    for numbers in every(&[vec![vec![0]], vec![number; minutes]].concat()) {
        let facts = every(&vec![words.clone(); minutes]);
        let record = |facts: Vec<[u32; 2]>| Buffers {
            numbers: numbers.clone(),
            facts: facts.concat(),
            origin: origin.clone(),
            extent,
            ..Buffers::sized(policy)
        };
        records.extend(facts.into_iter().map(record).filter(|record| sound(policy, record)));
    }
    records
}

/// A policy of one component with the propositions as its first lines and this rule as its last.
fn with_rule(propositions: usize, minutes: usize, formula: Formula) -> Policy {
    let lines = (0..propositions).map(|k| Subformula { formula: Proposition(k), rule: false });
    let subformulas = lines.chain([Subformula { formula, rule: true }]).collect();
    Policy { propositions, components: 1, minutes, subformulas }
}

/// Each newer kind over every small interval, or over every choice of two operands.
fn tiny_policies() -> Vec<Policy> {
    let pairs: [fn(usize, usize) -> Formula; 2] = [And, Implies];
    let spans: [fn(Span) -> Formula; 4] = [Once, Historically, Eventually, Always];
    let intervals = (0..=4).flat_map(|upper| (0..=upper).map(move |lower| (lower, upper)));
    let intervals = intervals.flat_map(|(lower, upper)| spans.map(|kind| kind(Span { first: 0, lower, upper })));
    let operands = [(0, 0), (0, 1), (1, 0), (1, 1)].into_iter().flat_map(|(i, j)| pairs.map(|kind| kind(i, j)));
    let with_intervals = intervals.map(|formula| with_rule(1, 3, formula));
    with_intervals.chain(operands.map(|formula| with_rule(2, 2, formula))).collect()
}

/// The message tells nothing new, so that both sheets are read over the record as it is.
#[test]
fn every_record_of_tiny_policies() {
    let policies = tiny_policies();
    let seen = rounds::run(9_800_000, policies.len(), |number, _, seen| {
        let policy = &policies[number % policies.len()];
        let pair = Pair::new(policy, |_| true).unwrap();
        for mut buffers in every_record(policy) {
            let mut other = Buffers {
                numbers: buffers.numbers.clone(),
                facts: buffers.facts.clone(),
                ..Buffers::sized(&pair.other.policy)
            };
            (other.origin, other.extent) = origin_of(&pair.other_bytes);
            seen.answer("receive", pair.take(&[0x10], &mut buffers, &mut other));
            seen.verdicts(&buffers.verdicts);
            let row = &buffers.valuation[policy.propositions * policy.minutes..];
            row.iter().for_each(|code| seen.one(["unknown", "true", "false"][usize::from(*code)]));
        }
    });
    seen.at_least(policies.len() * 100, "receive accepted");
    for what in ["unknown", "true", "false", "kept", "broken"] {
        seen.at_least(1_000, what);
    }
}

/// Document 01's slips of the small shift.
const A: &[u8] = &[0x0C, 0x01, 0x00, 0x01, 0x00, 0x00, 0x00, 0x00];
const B: &[u8] = &[0x0E, 0x02, 0x00, 0x02, 0x00, 0x01, 0x00, 0x00, 0x00, 0x01];
const D: &[u8] = &[0x06, 0x03, 0x00, 0x03, 0x00];

/// Card K with "mark 0 at some time in the last 2 minutes" as once, of two lines.
#[test]
fn the_small_shift_with_once() {
    let once = [0x01, 0x01, 0x04, 0x00, 0x02, 0x01, 0x01, 0x31, 0x08, 0x02, 0x00];
    assert_eq!(verdicts_after(&once, &[]), [0, 0, 0, 0]);
    assert_eq!(verdicts_after(&once, &[A]), [2, 0, 0, 0]);
    assert_eq!(verdicts_after(&once, &[B]), [0, 0, 1, 0]);
    assert_eq!(verdicts_after(&once, &[A, B]), [2, 0, 1, 0]);
    assert_eq!(verdicts_after(&once, &[B, A]), [2, 0, 1, 0]);
    assert_eq!(verdicts_after(&once, &[A, B, D]), [2, 0, 1, 1]);
    assert_eq!(verdicts_after(&once, &[D]), [0, 0, 0, 0]);
}

/// "Mark 0 within the next minute" as eventually: "a false mark at a busy minute 3 gives blank; at minute 2 with minute 3
/// quiet, broken."
#[test]
fn the_small_shift_with_eventually() {
    let eventually = [0x01, 0x01, 0x04, 0x00, 0x02, 0x01, 0x01, 0x31, 0x0A, 0x01, 0x00];
    let at_3 = [0x0E, 0x03, 0x00, 0x01, 0x00, 0x01, 0x00, 0x00, 0x00, 0x00];
    let at_2 = [0x0E, 0x02, 0x00, 0x01, 0x00, 0x01, 0x00, 0x00, 0x00, 0x00];
    let quiet_3 = [0x16, 0x04, 0x00, 0x01, 0x00];
    assert_eq!(verdicts_after(&eventually, &[&at_3]), [0, 0, 0, 0]);
    assert_eq!(verdicts_after(&eventually, &[&at_2, &quiet_3]), [0, 0, 2, 0]);
}

/// The same shift under "mark 0 at all times in the last 2 minutes", "mark 0 now and within the next minute", "marks 0 and
/// 1" and "mark 0 implies mark 1".
#[test]
fn the_small_shift_with_the_other_four() {
    let historically = [0x01, 0x01, 0x04, 0x00, 0x02, 0x01, 0x01, 0x31, 0x09, 0x02, 0x00];
    assert_eq!(verdicts_after(&historically, &[A]), [2, 0, 0, 0]);
    assert_eq!(verdicts_after(&historically, &[B]), [0, 0, 0, 0]);
    assert_eq!(verdicts_after(&historically, &[A, B]), [2, 0, 2, 0]);
    let always = [0x01, 0x01, 0x04, 0x00, 0x02, 0x01, 0x01, 0x31, 0x0B, 0x01, 0x00];
    assert_eq!(verdicts_after(&always, &[A]), [2, 0, 0, 0]);
    assert_eq!(verdicts_after(&always, &[B]), [0, 0, 0, 0]);
    // Minute 3 quiet: the mark at minute 2 is all that is asked for.
    assert_eq!(verdicts_after(&always, &[A, B, &[0x16, 0x04, 0x00, 0x02, 0x00]]), [2, 0, 1, 0]);
    // Mark 0 at minute 0, both marks at minute 1, mark 1 alone at minute 2.
    let marks: [&[u8]; 3] = [
        &[0x0C, 0x01, 0x00, 0x03, 0x00, 0x00, 0x00, 0x01],
        &[0x0E, 0x01, 0x00, 0x02, 0x00, 0x03, 0x00, 0x00, 0x00, 0x03],
        &[0x0E, 0x02, 0x00, 0x03, 0x00, 0x03, 0x00, 0x00, 0x00, 0x02],
    ];
    let and = [0x02, 0x01, 0x04, 0x00, 0x03, 0x01, 0x01, 0x03, 0x01, 0x01, 0x25, 0x06, 0x01];
    assert_eq!(verdicts_after(&and, &marks), [2, 1, 2, 0]);
    let implies = [0x02, 0x01, 0x04, 0x00, 0x03, 0x01, 0x01, 0x03, 0x01, 0x01, 0x25, 0x07, 0x01];
    assert_eq!(verdicts_after(&implies, &marks), [2, 1, 1, 0]);
}

/// Each newer kind a rule of one card, of marks 0 and 1 or of mark 0 from 0 to 1 minutes away: mark 0 alone at minute 0,
/// mark 1 alone at minute 2, minute 1 quiet and minute 3 open. The same case is proved in `crates/demands/proofs/Small.antt`.
#[test]
fn six_rules_of_one_card() {
    let card: [&[u8]; 9] = [
        &[0x02, 0x01, 0x04, 0x00, 0x08],
        &[0x01, 0x01],
        &[0x03, 0x01, 0x01],
        &[0x25, 0x06, 0x01],
        &[0x25, 0x07, 0x01],
        &[0x31, 0x08, 0x01, 0x00],
        &[0x31, 0x09, 0x01, 0x00],
        &[0x31, 0x0A, 0x01, 0x00],
        &[0x31, 0x0B, 0x01, 0x00],
    ];
    let slips: [&[u8]; 2] = [
        &[0x0C, 0x01, 0x00, 0x03, 0x00, 0x00, 0x00, 0x01],
        &[0x0E, 0x02, 0x00, 0x02, 0x00, 0x03, 0x00, 0x00, 0x00, 0x02],
    ];
    let verdicts = [[2, 0, 2, 0], [2, 0, 1, 0], [1, 0, 2, 0], [1, 0, 2, 0], [1, 0, 0, 0], [1, 0, 2, 0]];
    assert_eq!(verdicts_after(&card.concat(), &slips), verdicts.concat());
}
