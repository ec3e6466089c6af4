//! Request 4 of document 02: "In a sound record a minute is then known busy exactly when it is busy in every shift that
//! fits the record, and known quiet exactly when it is quiet in all of them; both are to be shown." By brute force over
//! every trace of tiny policies: for every record, by the oracle; and for what archive and oracle show after lists of
//! messages.

use conformance::rounds::{self, Seen};
use conformance::{inputs, open, receive, verdicts_after};
use oracle::brute::every_trace;
use oracle::generate::{self, Random};
use oracle::knowledge::{known_busy, known_quiet, sound, NOT_KNOWN};
use oracle::message::{self, Event, Message};
use oracle::policy::{Formula, Policy, Subformula, Temporal};
use oracle::refusal::CONFLICT;
use oracle::trace::Trace;
use oracle::truth::Truth;
use oracle::{Answer, Buffers, Refusal};

/// What these traces tell of a minute: true where it is busy in all, false where it is quiet in all, else unknown.
/// There is one at least.
fn told(traces: &[&Trace], minute: usize) -> Truth {
    let busy: Vec<bool> = traces.iter().map(|trace| trace.time_point(minute as i64)).collect();
    match (busy.contains(&true), busy.contains(&false)) {
        (true, false) => Truth::True,
        (false, true) => Truth::False,
        (true, true) => Truth::Unknown,
        (false, false) => panic!("no trace"),
    }
}

/// Counts what is told of a minute, and whether the numbers right before and at it are known: some component's, where
/// it is busy, or all of them, where it is quiet.
fn tell(policy: &Policy, buffers: &Buffers, minute: usize, told: Truth, seen: &mut Seen) {
    let number = |component, place| buffers.number(policy, component, place);
    let beside = |component| number(component, minute).is_some() && number(component, minute + 1).is_some();
    let rises = |component| beside(component) && number(component, minute) != number(component, minute + 1);
    seen.one(match told {
        Truth::True if (0..policy.components).any(rises) => "busy",
        Truth::True => "busy in a gap",
        Truth::False if (0..policy.components).all(beside) => "quiet",
        Truth::False => "quiet in a gap",
        Truth::Unknown => "open",
    });
}

const TOLD: [&str; 5] = ["busy", "busy in a gap", "quiet", "quiet in a gap", "open"];

/// Components, minutes and propositions of a policy, and how many minutes its traces may run past its last.
const TINIEST: [[usize; 4]; 12] = [
    [1, 1, 0, 2],
    [1, 2, 0, 2],
    [1, 3, 0, 2],
    [1, 4, 0, 2],
    [1, 5, 0, 1],
    [1, 2, 1, 2],
    [1, 3, 1, 1],
    [2, 1, 0, 2],
    [2, 2, 0, 2],
    [2, 3, 0, 1],
    [2, 2, 1, 1],
    [3, 2, 0, 1],
];

/// Every list of one item of each of these.
fn every<T: Copy>(choices: &[Vec<T>]) -> Vec<Vec<T>> {
    choices.iter().fold(vec![vec![]], |lists, items| {
        lists.iter().flat_map(|list| items.iter().map(move |item| [&list[..], &[*item]].concat())).collect()
    })
}

/// Every record, sound or not, of a policy with at most one proposition, in which the first numbers are 0 and the
/// others at most M + 1.
fn every_record(policy: &Policy) -> Vec<Buffers> {
    let number: Vec<u16> = (0..=policy.minutes as u16 + 1).chain([NOT_KNOWN]).collect();
    let run = [vec![vec![0]], vec![number; policy.minutes]].concat();
    // Not known, known to be false, known to be true.
    let words = [[0, 0], [1, 0], [1, 1]][..1 + 2 * policy.propositions].to_vec();
    let facts = every(&vec![words; policy.minutes]);
    let mut records = Vec::new();
    for numbers in every(&vec![run; policy.components].concat()) {
        let record =
            |facts: &Vec<[u32; 2]>| Buffers { numbers: numbers.clone(), facts: facts.concat(), ..Buffers::default() };
        records.extend(facts.iter().map(record));
    }
    records
}

/// By the oracle alone: a record is sound exactly if some trace agrees with it, and a minute is then known to be what
/// all such traces tell. An open minute is so busy in one of them and quiet in another.
#[test]
fn every_record_of_tiny_policies() {
    let mut seen = Seen::default();
    for [components, minutes, propositions, past] in TINIEST {
        let policy = Policy { propositions, components, minutes, subformulas: vec![] };
        let traces = every_trace(&policy, minutes + past);
        for buffers in every_record(&policy) {
            let agreeing: Vec<&Trace> = traces.iter().filter(|trace| trace.agrees(&policy, &buffers)).collect();
            assert_eq!(sound(&policy, &buffers), !agreeing.is_empty(), "{policy:?} {buffers:?}");
            if agreeing.is_empty() {
                seen.one("unsound");
                continue;
            }
            seen.one("sound");
            for minute in 0..minutes {
                let told = told(&agreeing, minute);
                let known = (known_busy(&policy, &buffers, minute), known_quiet(&policy, &buffers, minute));
                assert_eq!(known, (told == Truth::True, told == Truth::False), "{minute} {policy:?} {buffers:?}");
                tell(&policy, &buffers, minute, told, &mut seen);
            }
        }
    }
    println!("{seen:?}");
    seen.at_least(2_000, "sound");
    TOLD.iter().for_each(|what| seen.at_least(500, what));
}

/// A policy that shows what is known of each minute, and its traces. Line 0, the rule, is true: it is kept exactly at
/// the minutes known busy. Line 1 is "true since true" with the interval from 0 to 0, which at every minute is e.
struct Shown {
    policy: Policy,
    bytes: Vec<u8>,
    traces: Vec<Trace>,
}

impl Shown {
    /// With every trace that runs at most a minute past the policy's last.
    fn new(components: usize, minutes: usize) -> Shown {
        let always = Subformula { formula: Formula::True, rule: true };
        let here = Temporal { first: 0, second: 0, lower: 0, upper: 0 };
        let e = Subformula { formula: Formula::Since(here), rule: false };
        let policy = Policy { propositions: 1, components, minutes, subformulas: vec![always, e] };
        Shown { bytes: generate::encode_policy(&policy), traces: every_trace(&policy, minutes + 1), policy }
    }

    /// Opens, whatever the buffers hold; every trace could have sent nothing.
    fn open(&self, mut buffers: Buffers, seen: &mut Seen) -> (Vec<&Trace>, Buffers) {
        assert_eq!(open(&self.bytes, &mut buffers), Answer::Done);
        let left: Vec<&Trace> = self.traces.iter().collect();
        assert!(buffers.verdicts.iter().all(|code| *code == 0), "not blank under {:?}", self.bytes);
        self.check_points(&left, &buffers, seen);
        (left, buffers)
    }

    /// Offers bytes to buffers after messages that the traces in `left` could have sent, and no others. Gives the
    /// traces that could have sent all that is now accepted.
    fn take<'a>(&self, offer: &[u8], left: &[&'a Trace], buffers: &mut Buffers, seen: &mut Seen) -> Vec<&'a Trace> {
        let answer = receive(&self.bytes, offer, buffers);
        seen.answer("receive", answer);
        let message = match message::read(&self.policy, offer) {
            Ok(message) => message,
            Err(refusal) => {
                assert_eq!(answer, Answer::Refused(refusal), "{offer:02X?} under {:02X?}", self.bytes);
                return left.to_vec();
            }
        };
        let admitting: Vec<&Trace> = left.iter().copied().filter(|trace| trace.admits(&message)).collect();
        if admitting.is_empty() {
            let clash = Answer::Refused(Refusal { number: CONFLICT, place: 0 });
            assert_eq!(answer, clash, "{offer:02X?} under {:02X?}", self.bytes);
            return left.to_vec();
        }
        let kept = buffers.verdicts.iter().filter(|code| **code == 1).count();
        assert_eq!(answer, Answer::Received(kept), "{offer:02X?} under {:02X?}", self.bytes);
        self.check_sheet(&admitting, buffers);
        self.check_points(&admitting, buffers, seen);
        admitting
    }

    /// The sheet is kept exactly at the minutes that are busy in every one of these traces.
    fn check_sheet(&self, left: &[&Trace], buffers: &Buffers) {
        let minutes = 0..self.policy.minutes;
        let expected: Vec<u8> = minutes.map(|minute| u8::from(told(left, minute) == Truth::True)).collect();
        assert_eq!(buffers.verdicts, expected, "{:?} under {:02X?}", buffers.numbers, self.bytes);
    }

    /// The work sheet's second line is what all of these traces tell.
    fn check_points(&self, left: &[&Trace], buffers: &Buffers, seen: &mut Seen) {
        for minute in 0..self.policy.minutes {
            let told = told(left, minute);
            let read = buffers.valuation[self.policy.minutes + minute];
            assert_eq!(read, told.code(), "{minute} {:?} under {:02X?}", buffers.numbers, self.bytes);
            tell(&self.policy, buffers, minute, told, seen);
        }
    }

    /// Every list of at most `most` more of these messages.
    fn lists(&self, messages: &[Vec<u8>], most: usize, left: &[&Trace], buffers: &Buffers, seen: &mut Seen) {
        for message in messages {
            let mut after = buffers.clone();
            let left = self.take(message, left, &mut after, seen);
            // After one that is refused or tells nothing new, the list goes on as without it.
            if most > 1 && after != *buffers {
                self.lists(messages, most - 1, &left, &after, seen);
            }
        }
    }
}

/// Every observation that names no proposition and every alive, with numbers of at most M + 1.
fn every_message(policy: &Policy) -> Vec<Vec<u8>> {
    let message = |component, event| generate::encode_message(&Message { component, event });
    let mut messages = Vec::new();
    for component in 0..policy.components {
        for minute in 0..=policy.minutes {
            for number in 0..=policy.minutes + 1 {
                messages.push(message(component, Event::Alive { minute, number }));
                if minute < policy.minutes && number > 0 {
                    messages.push(message(component, Event::Observation { minute, number, named: 0, values: 0 }));
                }
            }
        }
    }
    messages
}

/// Components and minutes of a policy, and the most messages in a list.
const LISTS: [[usize; 3]; 6] = [[1, 1, 4], [1, 2, 4], [1, 3, 4], [1, 4, 3], [2, 2, 3], [2, 3, 3]];

#[test]
fn every_short_list_of_messages() {
    let mut seen = Seen::default();
    for [components, minutes, most] in LISTS {
        let shown = Shown::new(components, minutes);
        let (left, buffers) = shown.open(Buffers::sized(&shown.policy), &mut seen);
        shown.lists(&every_message(&shown.policy), most, &left, &buffers, &mut seen);
    }
    println!("{seen:?}");
    seen.at_least(5_000, "receive accepted");
    seen.at_least(5_000, "receive refused 9");
    TOLD.iter().for_each(|what| seen.at_least(1_000, what));
}

/// The most bits of a trace: an observation or none for each component and a value of the proposition, in every minute.
const MOST_BITS: usize = 12;

fn shown(random: &mut Random) -> Shown {
    loop {
        let (components, minutes) = (random.between(1, 3), random.between(1, 5));
        if (components + 1) * (minutes + 1) <= MOST_BITS {
            return Shown::new(components, minutes);
        }
    }
}

/// Messages of one trace, damaged ones and ones of no trace or of another.
#[test]
fn random_lists_of_messages() {
    let seen = rounds::run(8_000_000, 200, |_, random, seen| {
        let shown = shown(random);
        for _ in 0..20 {
            let one = shown.traces[random.below(shown.traces.len())].clone();
            let other = shown.traces[random.below(shown.traces.len())].clone();
            let (mut left, mut buffers) = shown.open(inputs::filled_buffers(random, &shown.policy), seen);
            let mut offers = generate::offers(random, &shown.policy, &one, 8);
            offers.extend(generate::offers(random, &shown.policy, &other, 2));
            random.shuffle(&mut offers);
            for offer in offers {
                left = shown.take(&offer, &left, &mut buffers, seen);
            }
            seen.one("lists");
        }
    });
    seen.at_least(1_000, "lists");
    for what in ["accepted", "refused 7", "refused 8", "refused 9"] {
        seen.at_least(200, &format!("receive {what}"));
    }
    TOLD.iter().for_each(|what| seen.at_least(500, what));
}

/// "A mixer lost two slips at minutes 0 and 1, then reported count 3 at minute 2", or was alive at minute 3 with count
/// 3. One mark, one station, three minutes, and the rule is true.
#[test]
fn the_mixer_that_lost_two_slips() {
    let policy = [0x01, 0x01, 0x03, 0x00, 0x01, 0x20];
    assert_eq!(verdicts_after(&policy, &[&[0x06, 0x02, 0x00, 0x03, 0x00]]), [1, 1, 1]);
    assert_eq!(verdicts_after(&policy, &[&[0x16, 0x03, 0x00, 0x03, 0x00]]), [1, 1, 1]);
    // With one observation less it is not told which minute had none.
    assert_eq!(verdicts_after(&policy, &[&[0x16, 0x03, 0x00, 0x02, 0x00]]), [0, 0, 0]);
    assert_eq!(verdicts_after(&policy, &[&[0x06, 0x02, 0x00, 0x02, 0x00]]), [0, 0, 1]);
    // Minute 0 had none, so that the two others had one each.
    assert_eq!(verdicts_after(&policy, &[&[0x16, 0x03, 0x00, 0x02, 0x00], &[0x12, 0x01, 0x00]]), [0, 1, 1]);
}
