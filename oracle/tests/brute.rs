//! The oracle against every trace of tiny policies.

use oracle::brute::Bench;
use oracle::generate::{self, Limits, Random, TINY};
use oracle::knowledge::{sound, time_points};
use oracle::policy::{Formula, Span, Subformula};
use oracle::truth::Truth;
use oracle::{open, receive, Answer, Buffers, Policy};

/// A bench of a random tiny policy, of at most so many bits of trace.
fn bench(random: &mut Random, most_bits: usize) -> Bench {
    loop {
        let policy = generate::policy(random, &TINY);
        let past = random.below(3);
        let bits = (policy.minutes + past) * (policy.components + policy.propositions);
        if bits <= most_bits {
            return Bench::new(policy, past);
        }
    }
}

/// Mixed offers: of one trace, damaged, not of any trace, and of another trace.
fn offers(random: &mut Random, bench: &Bench, count: usize) -> Vec<Vec<u8>> {
    let one = bench.traces[random.below(bench.traces.len())].clone();
    let other = bench.traces[random.below(bench.traces.len())].clone();
    let mut offers = generate::offers(random, &bench.policy, &one, count);
    offers.extend(generate::offers(random, &bench.policy, &other, count / 3));
    random.shuffle(&mut offers);
    offers
}

/// How many gaps of more than one minute the records had, from one known place of a run to the next, and open minutes.
#[derive(Debug, Default)]
struct Seen {
    full: usize,
    level: usize,
    between: usize,
    open: usize,
}

impl Seen {
    fn record(&mut self, policy: &Policy, buffers: &Buffers) {
        for component in 0..policy.components {
            for pair in buffers.known_numbers(policy, component).windows(2) {
                let (minutes, rise) = (pair[1].0 - pair[0].0, pair[1].1 - pair[0].1);
                match rise {
                    _ if minutes == 1 => (),
                    0 => self.level += 1,
                    _ if rise == minutes => self.full += 1,
                    _ => self.between += 1,
                }
            }
        }
        self.open += time_points(policy, buffers).iter().filter(|point| **point == Truth::Unknown).count();
    }

    fn all_at_least(&self, times: usize) {
        assert!([self.full, self.level, self.between, self.open].iter().all(|seen| *seen >= times), "{self:?}");
    }
}

#[test]
fn accepted_exactly_when_some_trace_could_have_sent_it_and_verdicts_are_every_traces() {
    let mut random = Random::new(1);
    let mut seen = Seen::default();
    for _ in 0..150 {
        let bench = bench(&mut random, 12);
        bench.check_textbook();
        for _ in 0..12 {
            let offers = offers(&mut random, &bench, 12);
            bench.run(&offers);
            seen.record(&bench.policy, &bench.run(&offers[..random.below(5)]));
        }
    }
    seen.all_at_least(25);
}

#[test]
fn more_traces_of_fewer_policies() {
    let mut random = Random::new(2);
    for _ in 0..4 {
        let bench = bench(&mut random, 16);
        bench.check_textbook();
        for _ in 0..20 {
            bench.run(&offers(&mut random, &bench, 10));
        }
    }
}

/// A policy of one component with the propositions as its first lines and this rule as its last.
fn with_rule(propositions: usize, minutes: usize, formula: Formula) -> Policy {
    let lines = (0..propositions).map(|k| Subformula { formula: Formula::Proposition(k), rule: false });
    let subformulas = lines.chain([Subformula { formula, rule: true }]).collect();
    Policy { propositions, components: 1, minutes, subformulas }
}

/// Each of the six newer kinds over every small interval, or over either order of two operands.
#[test]
fn and_implies_once_historically_eventually_and_always_by_the_textbook() {
    let mut random = Random::new(6);
    let pairs: [fn(usize, usize) -> Formula; 2] = [Formula::And, Formula::Implies];
    let spans: [fn(Span) -> Formula; 4] = [Formula::Once, Formula::Historically, Formula::Eventually, Formula::Always];
    let intervals = (0..=5).flat_map(|upper| (0..=upper).map(move |lower| (lower, upper)));
    let with_intervals = intervals.flat_map(|(lower, upper)| spans.map(|kind| kind(Span { first: 0, lower, upper })));
    let with_operands = [(0, 0), (0, 1), (1, 0), (1, 1)].into_iter().flat_map(|(i, j)| pairs.map(|kind| kind(i, j)));
    let benches = with_intervals
        .map(|formula| Bench::new(with_rule(1, 4, formula), 2))
        .chain(with_operands.map(|formula| Bench::new(with_rule(2, 2, formula), 1)));
    for bench in benches {
        bench.check_textbook();
        for _ in 0..4 {
            bench.run(&offers(&mut random, &bench, 10));
        }
    }
}

/// Both components, both propositions, all three minutes and two past: 2^20 traces.
#[test]
#[ignore = "takes long"]
fn the_largest_tiny_policies() {
    let mut random = Random::new(3);
    for _ in 0..4 {
        let sizes = Limits { subformulas: 6, ..TINY };
        let bench = Bench::new(generate::policy_of(&mut random, &sizes, 3), 2);
        bench.check_textbook();
        for _ in 0..40 {
            bench.run(&offers(&mut random, &bench, 14));
        }
    }
}

#[test]
fn any_knowledge_is_sound_exactly_when_some_trace_agrees() {
    let mut random = Random::new(4);
    let mut seen = Seen::default();
    for _ in 0..60 {
        let bench = bench(&mut random, 12);
        for _ in 0..30 {
            let trace = bench.traces[random.below(bench.traces.len())].clone();
            let mut buffers = Buffers::sized(&bench.policy);
            generate::sound_knowledge(&mut random, &bench.policy, &trace, &mut buffers);
            if random.once_in(2) {
                generate::damage_buffers(&mut random, &bench.policy, &mut buffers);
            }
            if sound(&bench.policy, &buffers) {
                seen.record(&bench.policy, &buffers);
            }
            let offer = offers(&mut random, &bench, 1).swap_remove(0);
            bench.run_from(&offer, buffers);
        }
    }
    seen.all_at_least(50);
}

/// All offers are one trace's, so that all are accepted, and the order and repeats do not matter.
#[test]
fn shuffled_and_repeated_lists_of_one_trace_end_alike() {
    let mut random = Random::new(5);
    for limits in [TINY, generate::SMALL, generate::MEDIUM] {
        for _ in 0..100 {
            let policy = generate::policy(&mut random, &limits);
            let trace = generate::trace(&mut random, &policy, 2);
            let list = generate::messages(&mut random, &policy, &trace, 10);
            let mut other = list.clone();
            other.extend(&list[list.len() / 2..]);
            random.shuffle(&mut other);
            let bytes = generate::encode_policy(&policy);
            let end = |messages: &[oracle::message::Message]| {
                let mut buffers = Buffers::sized(&policy);
                assert_eq!(open(&bytes, &mut buffers), Answer::Done);
                for message in messages {
                    let answer = receive(&bytes, &generate::encode_message(message), &mut buffers);
                    assert!(matches!(answer, Answer::Received(_)));
                }
                buffers
            };
            assert_eq!(end(&list), end(&other));
        }
    }
}
