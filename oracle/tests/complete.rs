//! "Complete shifts leave no blanks", request 8 of document 02: over complete knowledge each busy minute t with
//! t + reach below M has a verdict, which is that of every trace that agrees; with a smaller reach, or with one thing
//! less known, this would fail.

use oracle::brute::every_trace;
use oracle::generate::{self, Limits, Random, LARGEST, MEDIUM, SMALL};
use oracle::knowledge::{sound, time_points, time_points_of_many, NOT_KNOWN};
use oracle::message;
use oracle::policy::Formula::*;
use oracle::policy::{self, Formula, Span, Subformula, Temporal};
use oracle::reach::{complete, complete_for_lines, reaches};
use oracle::reading::{two_valued_verdicts, valuation, valuation_of_many, verdicts};
use oracle::trace::Trace;
use oracle::truth::Truth;
use oracle::{open, receive, rule_reaches, Answer, Buffers, Policy};
use std::collections::BTreeSet;
use std::ops::Range;

/// Mark 0 within the next minute: card K with the last line `35 05 01 01 00`.
const K_UNTIL: &[u8] = &[0x01, 0x01, 0x04, 0x00, 0x03, 0x00, 0x01, 0x01, 0x35, 0x05, 0x01, 0x01, 0x00];

/// How many propositions, components and minutes there are.
#[derive(Clone, Copy, Debug)]
struct Sizes {
    propositions: usize,
    components: usize,
    minutes: usize,
}

impl Sizes {
    const fn new(propositions: usize, components: usize, minutes: usize) -> Sizes {
        Sizes { propositions, components, minutes }
    }

    /// A policy with these lines, all of them rules.
    fn policy(self, formulas: &[Formula]) -> Policy {
        let Sizes { propositions, components, minutes } = self;
        let subformulas = formulas.iter().map(|formula| Subformula { formula: *formula, rule: true }).collect();
        Policy { propositions, components, minutes, subformulas }
    }
}

fn parts(first: usize, second: usize, lower: usize, upper: usize) -> Temporal {
    Temporal { first, second, lower, upper }
}

fn span(first: usize, lower: usize, upper: usize) -> Span {
    Span { first, lower, upper }
}

// What complete knowledge tells.

/// How many cells at busy minutes were read, by their code: where t + reach is below M, of these the last minute of a
/// rule that looks ahead, and where it is not below M.
#[derive(Debug, Default)]
struct Seen {
    within: [usize; 3],
    last: [usize; 3],
    beyond: [usize; 3],
}

impl Seen {
    /// "Each busy minute t with t + reach below M has a verdict", and it is that of all these traces, which are given
    /// by their two-valued verdicts.
    fn check<'a>(&mut self, policy: &Policy, buffers: &Buffers, traces: impl Iterator<Item = &'a Vec<u8>> + Clone) {
        let (e, sheet) = points_and_sheet(policy, buffers);
        let reaches = reaches(policy);
        for (rule, line) in policy.rules().into_iter().enumerate() {
            for t in (0..policy.minutes).filter(|t| e[*t] == Truth::True) {
                let cell = rule * policy.minutes + t;
                let code = usize::from(sheet[cell]);
                if t + reaches[line] < policy.minutes {
                    assert_ne!(code, 0, "rule {rule} at {t} of {policy:?} over {buffers:?}");
                    let same = traces.clone().all(|verdicts| verdicts[cell] == sheet[cell]);
                    assert!(same, "rule {rule} at {t} of {policy:?} over {buffers:?}");
                    self.within[code] += 1;
                    self.last[code] += usize::from(reaches[line] > 0 && t + reaches[line] + 1 == policy.minutes);
                } else {
                    self.beyond[code] += 1;
                }
            }
        }
    }

    /// Both verdicts at the last minute within the reach, and both and blanks beyond it, were read so often.
    fn all_at_least(&self, times: usize) {
        let all = self.last[1..].iter().chain(&self.beyond).all(|cells| *cells >= times);
        assert!(all, "{self:?}");
    }
}

/// e and the verdict sheet over this knowledge.
fn points_and_sheet(policy: &Policy, buffers: &Buffers) -> (Vec<Truth>, Vec<u8>) {
    let (e, sheet) = if policy.minutes <= SMALL.minutes {
        (time_points(policy, buffers), valuation(policy, buffers))
    } else {
        (time_points_of_many(policy, buffers), valuation_of_many(policy, buffers))
    };
    let verdicts = verdicts(policy, &e, &sheet);
    (e, verdicts)
}

/// The record of what a trace tells: its number at each cell and its value of each fact that these sets name, by their
/// bits, and every first number. Cells and facts are counted from the lowest bit, a component or minute at a time.
fn record(policy: &Policy, trace: &Trace, cells: usize, facts: usize) -> Buffers {
    let mut buffers = Buffers::sized(policy);
    buffers.forget(policy);
    let Policy { propositions, components, minutes, .. } = *policy;
    for (bit, (component, place)) in pairs(0..components, 1..minutes + 1).enumerate() {
        if cells >> bit & 1 == 1 {
            buffers.numbers[component * (minutes + 1) + place] = trace.number(component, place) as u16;
        }
    }
    for (bit, (minute, proposition)) in pairs(0..minutes, 0..propositions).enumerate() {
        if facts >> bit & 1 == 1 {
            buffers.facts[2 * minute] |= 1 << proposition;
            buffers.facts[2 * minute + 1] |= trace.values[minute] & 1 << proposition;
        }
    }
    buffers
}

/// Each of the first with each of the second.
fn pairs(first: Range<usize>, second: Range<usize>) -> impl Iterator<Item = (usize, usize)> {
    first.flat_map(move |first| second.clone().map(move |second| (first, second)))
}

/// Every record of these sizes that some trace tells and that is wanted, once each.
fn every_record(sizes: Sizes, wanted: impl Fn(&Policy, &Buffers) -> bool) -> Vec<Buffers> {
    let policy = sizes.policy(&[True]);
    let (cells, facts) = (sizes.components * sizes.minutes, sizes.propositions * sizes.minutes);
    let mut seen = BTreeSet::new();
    let mut records = Vec::new();
    for trace in every_trace(&policy, sizes.minutes) {
        for (cells, facts) in pairs(0..1 << cells, 0..1 << facts) {
            let buffers = record(&policy, &trace, cells, facts);
            if seen.insert((buffers.numbers.clone(), buffers.facts.clone())) && wanted(&policy, &buffers) {
                records.push(buffers);
            }
        }
    }
    records
}

/// Every formula of a line with this number, of the twelve kinds, with no bound above this one.
fn every_formula(number: usize, propositions: usize, bound: usize) -> Vec<Formula> {
    let mut formulas = vec![True];
    formulas.extend((0..propositions).map(Proposition));
    formulas.extend((0..number).map(Not));
    let intervals = || (0..=bound).flat_map(|upper| (0..=upper).map(move |lower| (lower, upper)));
    for (first, second) in pairs(0..number, 0..number) {
        formulas.extend([Or(first, second), And(first, second), Implies(first, second)]);
        for (lower, upper) in intervals() {
            let parts = parts(first, second, lower, upper);
            formulas.extend([Since(parts), Until(parts)]);
        }
    }
    for first in 0..number {
        for (lower, upper) in intervals() {
            let span = span(first, lower, upper);
            formulas.extend([Once(span), Historically(span), Eventually(span), Always(span)]);
        }
    }
    formulas
}

/// Every policy of these sizes with so many lines, all of them rules, and no bound above this one.
fn every_policy(sizes: Sizes, lines: usize, bound: usize) -> Vec<Policy> {
    let mut policies = vec![Vec::new()];
    for number in 0..lines {
        let formulas = every_formula(number, sizes.propositions, bound);
        let longer = |lines: Vec<Formula>| formulas.iter().map(move |formula| [&lines[..], &[*formula]].concat());
        policies = policies.into_iter().flat_map(longer).collect();
    }
    policies.iter().map(|lines| sizes.policy(lines)).collect()
}

/// Checks these policies over these records of their sizes, with every trace that agrees and runs so many minutes past
/// the last.
fn check_all(seen: &mut Seen, sizes: Sizes, policies: &[Policy], records: &[Buffers], past: usize) {
    let traces = every_trace(&policies[0], sizes.minutes + past);
    let agreeing = |buffers: &Buffers| -> Vec<usize> {
        (0..traces.len()).filter(|trace| traces[*trace].agrees(&policies[0], buffers)).collect()
    };
    let agreeing: Vec<Vec<usize>> = records.iter().map(agreeing).collect();
    assert!(agreeing.iter().all(|traces| !traces.is_empty()));
    for policy in policies {
        let verdicts: Vec<Vec<u8>> = traces.iter().map(|trace| two_valued_verdicts(policy, trace)).collect();
        for (buffers, agreeing) in records.iter().zip(&agreeing) {
            seen.check(policy, buffers, agreeing.iter().map(|trace| &verdicts[*trace]));
        }
    }
}

/// Every policy of two lines over every complete record: any numbers that are enough, and any facts at quiet minutes.
#[test]
fn every_policy_of_two_lines_over_every_complete_record() {
    let sizes = [
        (Sizes::new(1, 1, 1), 2, 2),
        (Sizes::new(1, 1, 2), 3, 2),
        (Sizes::new(1, 1, 3), 4, 1),
        (Sizes::new(1, 1, 4), 5, 0),
        (Sizes::new(1, 2, 1), 2, 2),
        (Sizes::new(1, 2, 2), 3, 1),
        (Sizes::new(1, 2, 3), 2, 0),
        (Sizes::new(2, 1, 1), 2, 2),
        (Sizes::new(2, 1, 2), 3, 1),
        (Sizes::new(2, 2, 2), 3, 0),
    ];
    let mut seen = Seen::default();
    let mut cases = [0; 3];
    for (sizes, bound, past) in sizes {
        let policies = every_policy(sizes, 2, bound);
        let records = every_record(sizes, complete);
        check_all(&mut seen, sizes, &policies, &records, past);
        cases = [cases[0] + policies.len(), cases[1] + records.len(), cases[2] + policies.len() * records.len()];
    }
    assert_eq!(cases, [1503, 10_239, 1_500_003], "policies, records, and one with the other");
    seen.all_at_least(30_000);
}

/// Every policy of three lines, two of which may look ahead over each other, over the complete records in which every
/// number stands, and no fact at a quiet minute.
#[test]
fn every_policy_of_three_lines() {
    let sizes = [(Sizes::new(1, 1, 2), 2, 1), (Sizes::new(1, 1, 3), 2, 0), (Sizes::new(2, 1, 3), 1, 0)];
    let mut seen = Seen::default();
    let mut cases = [0; 3];
    for (sizes, bound, past) in sizes {
        let policies = every_policy(sizes, 3, bound);
        let records = every_record(sizes, just_complete);
        check_all(&mut seen, sizes, &policies, &records, past);
        cases = [cases[0] + policies.len(), cases[1] + records.len(), cases[2] + policies.len() * records.len()];
    }
    assert_eq!(cases, [23_691, 161, 948_063], "policies, records, and one with the other");
    seen.all_at_least(30_000);
}

/// Complete, with every number and with no fact at a quiet minute.
fn just_complete(policy: &Policy, buffers: &Buffers) -> bool {
    let e = time_points(policy, buffers);
    complete(policy, buffers)
        && !buffers.numbers.contains(&NOT_KNOWN)
        && (0..policy.minutes).all(|minute| e[minute] == Truth::True || known_at(buffers, minute) == 0)
}

/// The propositions that are known at the minute, by their bits.
fn known_at(buffers: &Buffers, minute: usize) -> u32 {
    buffers.facts[2 * minute]
}

/// Small enough for many random records, and with lines enough to look ahead over each other.
const FEW: Limits = Limits { propositions: 3, components: 3, minutes: 7, subformulas: 8, bound: 3 };

/// A trace that agrees with the record of this one, and otherwise is unlike it: from each known number to the next it
/// makes its observations in other minutes, facts that are not known and all minutes past the last are at random, and
/// it may be longer or shorter.
fn another_trace(random: &mut Random, policy: &Policy, buffers: &Buffers, trace: &Trace) -> Trace {
    let past = random.below(4);
    let mut other = generate::trace(random, policy, past);
    for component in 0..policy.components {
        let known = buffers.known_numbers(policy, component);
        for pair in known.windows(2) {
            let minutes = &mut other.observed[component][pair[0].0..pair[1].0];
            minutes.copy_from_slice(&trace.observed[component][pair[0].0..pair[1].0]);
            random.shuffle(minutes);
        }
    }
    for minute in 0..policy.minutes {
        let known = known_at(buffers, minute);
        other.values[minute] = trace.values[minute] & known | other.values[minute] & !known;
    }
    assert!(other.agrees(policy, buffers));
    other
}

/// Checks the policy over this record of a trace, with that trace and three others that agree.
fn check_with_others(random: &mut Random, seen: &mut Seen, policy: &Policy, buffers: &Buffers, trace: &Trace) {
    assert!(sound(policy, buffers) && trace.agrees(policy, buffers));
    let others = (0..3).map(|_| another_trace(random, policy, buffers, trace));
    let verdicts: Vec<Vec<u8>> =
        others.chain([trace.clone()]).map(|trace| two_valued_verdicts(policy, &trace)).collect();
    seen.check(policy, buffers, verdicts.iter());
}

#[test]
fn random_policies_over_random_complete_records() {
    let mut random = Random::new(83);
    let mut seen = Seen::default();
    let larger = Limits { minutes: 60, bound: 12, subformulas: 16, ..MEDIUM };
    for (limits, policies, records) in [(FEW, 10_000, 6), (SMALL, 1500, 4), (larger, 60, 3)] {
        for _ in 0..policies {
            let policy = generate::policy(&mut random, &limits);
            for _ in 0..records {
                let trace = generate::trace(&mut random, &policy, 1);
                let mut buffers = Buffers::sized(&policy);
                generate::complete_knowledge(&mut random, &policy, &trace, &mut buffers);
                assert!(complete(&policy, &buffers) && complete_for_lines(&policy, &buffers));
                check_with_others(&mut random, &mut seen, &policy, &buffers, &trace);
            }
        }
    }
    seen.all_at_least(5000);
}

/// All of the largest sizes, but for the bounds, so that not every rule reaches past the last minute.
#[test]
fn policies_of_the_largest_sizes() {
    let mut random = Random::new(84);
    let mut seen = Seen::default();
    for bound in [20, 60, 200, 20, 60, 200] {
        let policy = generate::policy_of(&mut random, &Limits { bound, ..LARGEST }, 8);
        let trace = generate::trace(&mut random, &policy, 0);
        let mut buffers = Buffers::sized(&policy);
        for (component, place) in pairs(0..policy.components, 0..policy.minutes + 1) {
            buffers.numbers[component * (policy.minutes + 1) + place] = trace.number(component, place) as u16;
        }
        for minute in (0..policy.minutes).filter(|minute| trace.time_point(*minute as i64)) {
            buffers.facts[2 * minute..][..2].copy_from_slice(&[u32::MAX, trace.values[minute]]);
        }
        assert!(complete(&policy, &buffers));
        check_with_others(&mut random, &mut seen, &policy, &buffers, &trace);
    }
    seen.all_at_least(2);
}

/// A proposition that no line names may be unknown at busy minutes too.
#[test]
fn propositions_that_no_line_names_may_be_unknown() {
    let mut random = Random::new(85);
    let mut seen = Seen::default();
    let mut weaker = 0;
    for _ in 0..20_000 {
        let policy = generate::policy(&mut random, &Limits { propositions: 5, ..FEW });
        let named = policy.subformulas.iter().map(|line| match line.formula {
            Proposition(k) => 1 << k,
            _ => 0,
        });
        let named: u32 = named.fold(0, |named, one| named | one);
        let trace = generate::trace(&mut random, &policy, 0);
        let mut buffers = Buffers::sized(&policy);
        generate::complete_knowledge(&mut random, &policy, &trace, &mut buffers);
        for minute in 0..policy.minutes {
            let kept = named | random.word() as u32;
            buffers.facts[2 * minute] &= kept;
            buffers.facts[2 * minute + 1] &= kept;
        }
        assert!(complete_for_lines(&policy, &buffers));
        weaker += usize::from(!complete(&policy, &buffers));
        check_with_others(&mut random, &mut seen, &policy, &buffers, &trace);
    }
    assert!(weaker > 5000, "{weaker}");
    seen.all_at_least(1500);
}

/// Whether all these traces have the same busy minutes of the policy, and there the same values of these propositions.
fn alike(policy: &Policy, traces: &[&Trace], propositions: u32) -> bool {
    let look = |trace: &Trace| -> Vec<Option<u32>> {
        let busy = |minute: usize| trace.time_point(minute as i64);
        (0..policy.minutes).map(|minute| busy(minute).then_some(trace.values[minute] & propositions)).collect()
    };
    traces.iter().all(|trace| look(trace) == look(traces[0]))
}

/// What complete comes to, said without what is known of a minute: the traces that agree all look alike. Line 0 names
/// proposition 0, and no line another. These are all the sound records of their sizes.
#[test]
fn complete_exactly_when_all_traces_that_agree_look_alike() {
    let mut cases = [0; 3];
    for sizes in [Sizes::new(1, 1, 3), Sizes::new(1, 2, 2), Sizes::new(2, 1, 2)] {
        let policy = sizes.policy(&[Proposition(0), Not(0)]);
        let traces = every_trace(&policy, sizes.minutes);
        for buffers in every_record(sizes, sound) {
            let agreeing: Vec<&Trace> = traces.iter().filter(|trace| trace.agrees(&policy, &buffers)).collect();
            let known = [complete(&policy, &buffers), complete_for_lines(&policy, &buffers)];
            assert_eq!(known, [u32::MAX, 1].map(|marks| alike(&policy, &agreeing, marks)), "{buffers:?}");
            cases = [cases[0] + 1, cases[1] + usize::from(known[0]), cases[2] + usize::from(known[1])];
        }
    }
    assert_eq!(cases, [2628, 824, 900], "records, those that are complete, and those that are so for the lines");
}

// From messages.

/// Bytes that change no record that this trace agrees with into one that it does not: damaged messages of it and stray
/// ones that are not well-formed, or that it could have sent.
fn junk(random: &mut Random, policy: &Policy, trace: &Trace, messages: &[Vec<u8>]) -> Vec<u8> {
    loop {
        let own = &messages[random.below(messages.len())];
        let bytes = match random.below(3) {
            0 => generate::stray_message(random, policy),
            1 => own[1..].to_vec(),
            _ => generate::damaged(random, own),
        };
        if message::read(policy, &bytes).map_or(true, |message| trace.admits(&message)) {
            return bytes;
        }
    }
}

/// Every observation of the trace with every proposition and an alive at M of each component, some of them twice, and
/// junk between, in random order. What is to be accepted is marked.
fn reports(random: &mut Random, policy: &Policy, trace: &Trace) -> Vec<(bool, Vec<u8>)> {
    let messages = generate::every_message(policy, trace);
    let messages: Vec<Vec<u8>> = messages.iter().map(generate::encode_message).collect();
    let mut offers: Vec<(bool, Vec<u8>)> = messages.iter().map(|message| (true, message.clone())).collect();
    for _ in 0..random.below(6) {
        offers.push((true, messages[random.below(messages.len())].clone()));
        offers.push((false, junk(random, policy, trace, &messages)));
    }
    random.shuffle(&mut offers);
    offers
}

/// "When all stations have reported, packers expect a full sheet." At the end no message, of this trace or not, changes
/// a verdict.
#[test]
fn when_all_components_have_reported() {
    let mut random = Random::new(86);
    let mut seen = Seen::default();
    // How many were accepted and refused, and how many of those that came late.
    let (mut answers, mut late) = ([0; 2], [0; 2]);
    let larger = Limits { components: 4, minutes: 40, bound: 8, subformulas: 12, ..MEDIUM };
    for (limits, rounds) in [(FEW, 8000), (SMALL, 800), (larger, 20)] {
        for _ in 0..rounds {
            let policy = generate::policy(&mut random, &limits);
            let bytes = generate::encode_policy(&policy);
            let past = random.below(3);
            let trace = generate::trace(&mut random, &policy, past);
            let mut buffers = Buffers::sized(&policy);
            assert_eq!(open(&bytes, &mut buffers), Answer::Done);
            for (own, offer) in reports(&mut random, &policy, &trace) {
                let answer = receive(&bytes, &offer, &mut buffers);
                let refused = matches!(answer, Answer::Refused(_));
                assert!(!(own && refused), "{offer:02X?} {answer:?}");
                answers[usize::from(refused)] += 1;
            }
            assert!(complete(&policy, &buffers));
            assert_eq!(points_and_sheet(&policy, &buffers).1, buffers.verdicts);
            check_with_others(&mut random, &mut seen, &policy, &buffers, &trace);
            for _ in 0..4 {
                let before = buffers.clone();
                let answer = receive(&bytes, &generate::stray_message(&mut random, &policy), &mut buffers);
                assert!(complete(&policy, &buffers) && trace.agrees(&policy, &buffers));
                assert_eq!(buffers.verdicts, before.verdicts);
                late[usize::from(matches!(answer, Answer::Refused(_)))] += 1;
            }
        }
    }
    assert!(answers[0] > 60_000 && answers[1] > 10_000 && late.iter().all(|late| *late > 300), "{answers:?} {late:?}");
    seen.all_at_least(800);
}

// Nothing less would do.

/// The buffers after these messages, all of which are accepted; they are complete.
fn after(policy: &[u8], messages: &[&[u8]]) -> Buffers {
    let read = policy::read(policy).unwrap();
    let mut buffers = Buffers::sized(&read);
    assert_eq!(open(policy, &mut buffers), Answer::Done);
    for message in messages {
        assert!(matches!(receive(policy, message, &mut buffers), Answer::Received(_)), "{message:02X?}");
    }
    assert!(complete(&read, &buffers));
    buffers
}

/// The reach of the rule is 1 and M is 4: minute 2 is the last that is due a verdict, and minute 3 may be blank.
#[test]
fn the_small_shift_with_an_until_at_its_end() {
    let mut out = [7; 2];
    assert_eq!((rule_reaches(K_UNTIL, &mut out), out), (Ok(1), [1, 7]));
    let false_at_2: &[u8] = &[0x0E, 0x02, 0x00, 0x01, 0x00, 0x01, 0x00, 0x00, 0x00, 0x00];
    let quiet_at_3: &[u8] = &[0x16, 0x04, 0x00, 0x01, 0x00];
    let also_false_at_3: &[u8] = &[0x0E, 0x03, 0x00, 0x02, 0x00, 0x01, 0x00, 0x00, 0x00, 0x00];
    let false_at_3: &[u8] = &[0x0E, 0x03, 0x00, 0x01, 0x00, 0x01, 0x00, 0x00, 0x00, 0x00];
    let true_at_3: &[u8] = &[0x0E, 0x03, 0x00, 0x01, 0x00, 0x01, 0x00, 0x00, 0x00, 0x01];
    // 3 + 1 is not below 4.
    assert_eq!(after(K_UNTIL, &[false_at_3]).verdicts, [0, 0, 0, 0]);
    assert_eq!(after(K_UNTIL, &[false_at_3]).numbers, [0, 65535, 65535, 0, 1]);
    // 2 + 1 is.
    assert_eq!(after(K_UNTIL, &[false_at_2, quiet_at_3]).verdicts, [0, 0, 2, 0]);
    assert_eq!(after(K_UNTIL, &[false_at_2, also_false_at_3]).verdicts, [0, 0, 2, 0]);
    // A verdict that is not due may stand.
    assert_eq!(after(K_UNTIL, &[true_at_3]).verdicts, [0, 0, 0, 1]);
}

/// The three kinds that look ahead, from the operand, lower and upper. Until has line 0 as its first.
type Ahead = fn(usize, usize, usize) -> Formula;
const AHEAD: [Ahead; 3] = [
    |second, lower, upper| Until(parts(0, second, lower, upper)),
    |first, lower, upper| Eventually(span(first, lower, upper)),
    |first, lower, upper| Always(span(first, lower, upper)),
];

/// Whether over one of these records the last rule is blank at the minute t with t + reach = `sum`, and t is busy.
fn blank_at(policy: &Policy, records: &[Buffers], sum: usize) -> bool {
    let rule = policy.rules().len() - 1;
    let t = sum - reaches(policy)[rule];
    assert!(t < policy.minutes);
    records.iter().any(|buffers| {
        let (e, sheet) = points_and_sheet(policy, buffers);
        e[t] == Truth::True && sheet[rule * policy.minutes + t] == 0
    })
}

/// The records in which every minute is busy, proposition 1 is true everywhere, and proposition 0 everywhere true or
/// everywhere false.
fn steady_records(sizes: Sizes) -> [Buffers; 2] {
    [0b10, 0b11].map(|values| {
        let mut buffers = Buffers::sized(&sizes.policy(&[]));
        buffers.numbers = (0..=sizes.minutes as u16).collect();
        buffers.facts = [0b11, values].repeat(sizes.minutes);
        assert!(complete(&sizes.policy(&[]), &buffers));
        buffers
    })
}

/// Each of the three kinds over a mark, with every small interval and some long ones: "plus upper" can be no less.
#[test]
fn until_eventually_and_always_are_blank_one_minute_further() {
    let small = (1..=6).flat_map(|upper| (0..=upper).map(move |lower| (lower, upper)));
    let long = [(0, 100), (100, 100), (0, 1023), (1, 1023), (1023, 1023)];
    for (lower, upper) in small.chain(long) {
        for minutes in [upper, upper + 1, upper + 3].into_iter().filter(|minutes| *minutes <= 1024) {
            let sizes = Sizes::new(2, 1, minutes);
            let records = steady_records(sizes);
            for ahead in AHEAD {
                let policy = sizes.policy(&[Proposition(1), Proposition(0), ahead(1, lower, upper)]);
                assert_eq!(reaches(&policy), [0, 0, upper]);
                assert!(blank_at(&policy, &records, minutes), "{policy:?}");
                assert!(minutes == upper || !blank_at(&policy, &records, minutes - 1), "{policy:?}");
            }
        }
    }
}

/// Any two of the three kinds over each other, with small intervals: the sum of the uppers can be no less.
#[test]
fn two_that_look_ahead_over_each_other_are_blank_one_minute_further() {
    let intervals = [(0, 1), (1, 1), (0, 2), (1, 2), (2, 2)];
    // Each kind with each interval, over this line.
    let over = |line: usize| AHEAD.map(|ahead| intervals.map(|(lower, upper)| ahead(line, lower, upper))).concat();
    for minutes in 2..=4 {
        let sizes = Sizes::new(1, 1, minutes);
        let records = every_record(sizes, just_complete);
        for (inner, outer) in pairs(0..15, 0..15) {
            let policy = sizes.policy(&[True, Proposition(0), over(1)[inner], over(2)[outer]]);
            let reach = intervals[inner % 5].1 + intervals[outer % 5].1;
            assert_eq!(reaches(&policy)[3], reach);
            assert!(reach > minutes || blank_at(&policy, &records, minutes), "{policy:?}");
            assert!(reach >= minutes || !blank_at(&policy, &records, minutes - 1), "{policy:?}");
        }
    }
}

/// Over no complete record of these sizes the last rule is blank where t + reach = M, and over one of them it is one
/// minute later.
fn never_blank_at_m(propositions: usize, minutes: usize, lines: &[Formula], reach: usize) {
    let sizes = Sizes::new(propositions, 1, minutes);
    let records = every_record(sizes, just_complete);
    let policy = sizes.policy(lines);
    assert_eq!(reaches(&policy).last(), Some(&reach));
    assert!(!blank_at(&policy, &records, minutes) && blank_at(&policy, &records, minutes + 1));
}

/// The reach is enough, and not of every line the least that is. The first operand of an until is asked for at minutes
/// before j alone, and so one minute less far than the second; what looks back by lower asks for its operands that much
/// earlier.
#[test]
fn where_one_minute_less_would_do() {
    let eventually = Eventually(span(0, 0, 1));
    never_blank_at_m(2, 3, &[Proposition(0), Proposition(1), eventually, Until(parts(2, 1, 0, 1))], 2);
    never_blank_at_m(1, 4, &[Proposition(0), Eventually(span(0, 0, 2)), Once(span(1, 1, 3))], 2);
    never_blank_at_m(1, 4, &[Proposition(0), Eventually(span(0, 0, 2)), Historically(span(1, 1, 3))], 2);
    never_blank_at_m(1, 4, &[Proposition(0), Eventually(span(0, 0, 2)), Not(0), Since(parts(2, 1, 1, 3))], 2);
}

/// For each minute, whether over one of its records the last of these lines is blank at a busy minute t with t + reach
/// below M.
fn blank_within(sizes: Sizes, records: &[Vec<Buffers>], lines: &[Formula]) -> Vec<bool> {
    let policy = sizes.policy(lines);
    let (rule, reach) = (lines.len() - 1, reaches(&policy)[lines.len() - 1]);
    let blank = |buffers: &Buffers| {
        let (e, sheet) = points_and_sheet(&policy, buffers);
        (0..sizes.minutes - reach).any(|t| e[t] == Truth::True && sheet[rule * sizes.minutes + t] == 0)
    };
    records.iter().map(|records| records.iter().any(blank)).collect()
}

/// A line of each kind but true, after the lines true and mark 0. First those that ask for their own minute alone, then
/// those that look back, then those that look ahead, by a minute.
const OWN_MINUTE: [Formula; 5] = [Proposition(0), Not(1), Or(1, 1), And(1, 1), Implies(1, 1)];
const BACK: [Formula; 3] = [
    Since(Temporal { first: 0, second: 1, lower: 0, upper: 2 }),
    Once(Span { first: 1, lower: 0, upper: 2 }),
    Historically(Span { first: 1, lower: 0, upper: 2 }),
];
const AHEAD_BY_1: [Formula; 3] = [
    Until(Temporal { first: 0, second: 1, lower: 0, upper: 1 }),
    Eventually(Span { first: 1, lower: 0, upper: 1 }),
    Always(Span { first: 1, lower: 0, upper: 1 }),
];

/// "Every minute is known busy or quiet": with one minute open, though all facts are known, all kinds that look at
/// another minute may be blank within their reach.
#[test]
fn one_open_minute_may_leave_a_blank() {
    let sizes = Sizes::new(1, 2, 3);
    let all_known = every_record(sizes, |_, buffers| buffers.facts.chunks(2).all(|fact| fact[0] == 1));
    let open_alone = |minute: usize| {
        let open = |buffers: &Buffers| -> Vec<usize> {
            let e = time_points(&sizes.policy(&[True]), buffers);
            (0..sizes.minutes).filter(|minute| e[*minute] == Truth::Unknown).collect()
        };
        all_known.iter().filter(|buffers| open(buffers) == [minute]).cloned().collect()
    };
    let records: Vec<Vec<Buffers>> = (0..sizes.minutes).map(open_alone).collect();
    assert_eq!(records.iter().map(Vec::len).collect::<Vec<_>>(), [240, 400, 1824]);
    let blank = |formula| blank_within(sizes, &records, &[True, Proposition(0), formula]);
    assert_eq!(blank(True), [false, false, false]);
    for formula in OWN_MINUTE {
        assert_eq!(blank(formula), [false, false, false], "{formula:?}");
    }
    // Seen from a later minute, and from an earlier one.
    for (back, ahead) in BACK.into_iter().zip(AHEAD_BY_1) {
        assert_eq!(blank(back), [true, true, false], "{back:?}");
        assert_eq!(blank(ahead), [false, true, true], "{ahead:?}");
    }
}

/// "Every mark is known at every busy minute": with a mark unknown at one of them, all kinds but true may be blank
/// within their reach.
#[test]
fn one_unknown_mark_at_a_busy_minute_may_leave_a_blank() {
    let sizes = Sizes::new(1, 1, 3);
    let told = |policy: &Policy, buffers: &Buffers| !time_points(policy, buffers).contains(&Truth::Unknown);
    let all_told = every_record(sizes, told);
    let unknown_alone = |minute: usize| {
        let unknown = |buffers: &Buffers| -> Vec<usize> {
            let e = time_points(&sizes.policy(&[True]), buffers);
            let minutes = 0..sizes.minutes;
            minutes.filter(|minute| e[*minute] == Truth::True && known_at(buffers, *minute) == 0).collect()
        };
        all_told.iter().filter(|buffers| unknown(buffers) == [minute]).cloned().collect()
    };
    let records: Vec<Vec<Buffers>> = (0..sizes.minutes).map(unknown_alone).collect();
    assert_eq!(records.iter().map(Vec::len).collect::<Vec<_>>(), [52, 49, 52]);
    let blank = |formula| blank_within(sizes, &records, &[True, Proposition(0), formula]);
    assert_eq!(blank(True), [false, false, false]);
    for formula in [&OWN_MINUTE[..], &BACK, &AHEAD_BY_1].concat() {
        assert_eq!(blank(formula), [true, true, true], "{formula:?}");
    }
}

/// At a quiet minute no mark need be known: without what is known there, knowledge is still complete and the whole
/// verdict sheet is the same.
#[test]
fn a_mark_unknown_at_a_quiet_minute_does_no_harm() {
    let mut changed = 0;
    for sizes in [Sizes::new(1, 1, 3), Sizes::new(2, 1, 2)] {
        let policies = every_policy(sizes, 2, sizes.minutes);
        for buffers in every_record(sizes, complete) {
            let mut without = buffers.clone();
            let e = time_points(&policies[0], &buffers);
            for minute in (0..sizes.minutes).filter(|minute| e[*minute] == Truth::False) {
                without.facts[2 * minute..][..2].fill(0);
            }
            changed += usize::from(without != buffers);
            for policy in &policies {
                assert!(complete(policy, &without));
                assert_eq!(points_and_sheet(policy, &without), points_and_sheet(policy, &buffers));
            }
        }
    }
    assert_eq!(changed, 448);
}

/// Since, once and historically, over marks and over each other, have a verdict at every busy minute, the last one too,
/// however large upper is.
#[test]
fn what_only_looks_back_has_no_blank_at_all() {
    let sizes = Sizes::new(2, 1, 3);
    let records = every_record(sizes, just_complete);
    let mut cells = 0;
    for (lower, upper) in [(0, 0), (0, 1), (1, 1), (0, 3), (2, 3), (0, 1023), (1, 1023), (1023, 1023)] {
        let policy = sizes.policy(&[
            Proposition(0),
            Proposition(1),
            Since(parts(0, 1, lower, upper)),
            Once(span(0, lower, upper)),
            Historically(span(0, lower, upper)),
            Since(parts(4, 2, lower, upper)),
            Once(span(4, lower, upper)),
            Historically(span(2, lower, upper)),
        ]);
        assert_eq!(reaches(&policy), [0; 8]);
        for buffers in &records {
            let e = time_points_of_many(&policy, buffers);
            let sheet = verdicts(&policy, &e, &valuation_of_many(&policy, buffers));
            for (rule, t) in pairs(0..8, 0..sizes.minutes).filter(|(_, t)| e[*t] == Truth::True) {
                assert_ne!(sheet[rule * sizes.minutes + t], 0);
                cells += 1;
            }
        }
    }
    assert_eq!(cells, 19_200);
}
