//! "Complete shifts leave no blanks", request 8 of document 02. The reaches of rules: archive and oracle agree in the answer
//! and in every cell of the lent buffer, whatever the policy and however long the buffer. And through the archive: over
//! complete knowledge, of all reports in any order or of less, each rule has a verdict at every time point t with t + reach
//! below the policy's minutes.

use conformance::inputs::{self, list, Offer, Size};
use conformance::rounds::{self, Seen};
use conformance::{archive, receive, rule_reaches};
use oracle::generate::{self, Limits, Random, LARGEST, MEDIUM, SMALL, TINY};
use oracle::knowledge::NOT_KNOWN;
use oracle::policy::{self, Formula, Policy, Span, Subformula, Temporal};
use oracle::policy::{HIGHEST_BOUND, MOST_BYTES, MOST_MINUTES, MOST_RULES, MOST_SUBFORMULAS};
use oracle::reach::{complete, complete_for_lines};
use oracle::reading::{standing, two_valued_verdicts};
use oracle::refusal::SHORT_BUFFER;
use oracle::trace::Trace;
use oracle::{Answer, Buffers, PacketAnswer, Refusal};

/// Offers the policy with buffers of every length up to a few more than there can be rules, with anything in them. What is
/// no policy is refused for that at every length; a buffer with fewer places than there are rules is refused with 11.
fn at_every_length(random: &mut Random, policy: &[u8], seen: &mut Seen) {
    let rules = policy::read(policy).map(|policy| policy.rules().len());
    for length in 0..=MOST_RULES + 3 {
        let mut out: Vec<u16> = (0..length).map(|_| random.word() as u16).collect();
        let answer = rule_reaches(policy, &mut out);
        match rules {
            Ok(rules) if length < rules => assert_eq!(answer, Err(Refusal { number: SHORT_BUFFER, place: 0 })),
            _ => assert_eq!(answer, rules, "{policy:?}"),
        }
        seen.writing("reaches", answer);
    }
}

/// How many policies of which size a job has.
const SIZES: [(Size, usize); 6] =
    [(Size::Tiny, 60), (Size::Small, 60), (Size::Medium, 20), (Size::Wide, 6), (Size::Long, 10), (Size::Largest, 2)];

/// Right, damaged and stray ones, and noise.
#[test]
fn any_policy_into_buffers_of_every_length() {
    let seen = rounds::run(11_000_000, 100 * SIZES.len(), |number, random, seen| {
        let (size, policies) = SIZES[number % SIZES.len()];
        for _ in 0..policies {
            let policy = inputs::policy(random, size);
            let right = generate::encode_policy(&policy);
            let damaged = generate::damaged(random, &right);
            let stray = generate::stray_policy(random, &policy);
            let noise = inputs::noise(random, MOST_BYTES);
            [right, damaged, stray, noise].iter().for_each(|bytes| at_every_length(random, bytes, seen));
            seen.kinds(&policy);
        }
    });
    for what in ["written", "refused 1", "refused 2", "refused 3", "refused 4", "refused 11"] {
        seen.at_least(10_000, &format!("reaches {what}"));
    }
    seen.every_kind_at_least(5_000);
}

/// Lines over the line before them: one in `back` looks back or stays, the others look ahead, by any number of minutes, by
/// the most or nearly the most, or all by the most. The rules are any lines, or the last ones.
fn chain(random: &mut Random, back: usize) -> Policy {
    let lines = if random.once_in(2) { random.between(1, MOST_SUBFORMULAS) } else { MOST_SUBFORMULAS };
    let least = random.pick(&[0, HIGHEST_BOUND - 1, HIGHEST_BOUND]);
    let mut rules = vec![false; lines];
    rules[lines - random.between(1, lines.min(MOST_RULES))..].fill(true);
    if random.once_in(2) {
        random.shuffle(&mut rules);
    }
    let mut line = |(number, rule)| Subformula { formula: link(random, number, back, least), rule };
    let subformulas = rules.into_iter().enumerate().map(&mut line).collect();
    Policy { propositions: 1, components: 1, minutes: 1, subformulas }
}

fn link(random: &mut Random, number: usize, back: usize, least: usize) -> Formula {
    if number == 0 {
        return Formula::Proposition(0);
    }
    let (last, any) = (number - 1, random.below(number));
    let (first, second) = random.pick(&[(last, any), (any, last), (last, last)]);
    let upper = random.between(least, HIGHEST_BOUND);
    let lower = random.between(0, upper);
    let (parts, span) = (Temporal { first, second, lower, upper }, Span { first: last, lower, upper });
    if random.once_in(back) {
        return random.pick(&[
            Formula::Not(last),
            Formula::Or(first, second),
            Formula::And(first, second),
            Formula::Implies(first, second),
            Formula::Since(parts),
            Formula::Once(span),
            Formula::Historically(span),
        ]);
    }
    random.pick(&[Formula::Until(parts), Formula::Eventually(span), Formula::Always(span)])
}

/// Up to 63 times 1,023, which 16 bits just hold.
#[test]
fn lines_that_look_far_ahead() {
    let seen = rounds::run(11_100_000, 20, |_, random, seen| {
        for _ in 0..500 {
            let back = random.pick(&[2, 8, usize::MAX]);
            let policy = generate::encode_policy(&chain(random, back));
            at_every_length(random, &policy, seen);
            let mut reaches = [0; MOST_RULES];
            let rules = rule_reaches(&policy, &mut reaches).unwrap();
            let highest = reaches[..rules].iter().max().unwrap();
            seen.add("past 15 bits", usize::from(*highest > 1 << 15));
            seen.add("the highest", usize::from(usize::from(*highest) == (MOST_SUBFORMULAS - 1) * HIGHEST_BOUND));
        }
    });
    seen.at_least(50_000, "reaches written");
    seen.at_least(2_000, "past 15 bits");
    seen.at_least(200, "the highest");
}

/// A policy of this size, most of whose rules look less far ahead than there are minutes.
fn near_sighted(random: &mut Random, size: Size) -> Policy {
    let (limits, bounds): (_, &[usize]) = match size {
        Size::Tiny => (TINY, &[1, 2]),
        Size::Small => (SMALL, &[2, 4, 14]),
        Size::Medium => (MEDIUM, &[5, 20, 120]),
        Size::Wide => (Limits { minutes: random.between(25, 40), ..LARGEST }, &[1, 3]),
        Size::Long => (Limits { minutes: MOST_MINUTES, ..SMALL }, &[60, 300]),
        Size::Largest => (LARGEST, &[30, 100]),
    };
    let limits = Limits { bound: random.pick(bounds), ..limits };
    match size {
        Size::Tiny | Size::Small | Size::Medium => generate::policy(random, &limits),
        Size::Wide | Size::Long | Size::Largest => generate::policy_of(random, &limits, MOST_RULES),
    }
}

/// Each rule has a verdict at every time point t with t + reach below the policy's minutes. Notes the cells at the last of
/// these minutes, and those at the next one, which may be blank.
fn no_blanks(policy: &Policy, trace: &Trace, verdicts: &[u8], seen: &mut Seen) {
    let bytes = generate::encode_policy(policy);
    let mut reaches = [0; MOST_RULES];
    let rules = rule_reaches(&bytes, &mut reaches).unwrap();
    let minutes = policy.minutes;
    let codes = |rule: usize| (0..minutes).map(move |t| (t, verdicts[rule * minutes + t]));
    for (rule, reach) in reaches[..rules].iter().enumerate() {
        let reach = usize::from(*reach);
        for (t, code) in codes(rule).filter(|(t, _)| trace.time_point(*t as i64)) {
            let blank = code == 0 && t + reach < minutes;
            assert!(!blank, "rule {rule} is blank at {t}, reach {reach}\npolicy {bytes:?}\n{trace:?}");
            if t + reach + 1 == minutes && reach > 0 {
                seen.one(&format!("last sure {code}"));
            } else if t + reach == minutes {
                seen.one(&format!("first unsure {code}"));
            }
        }
    }
}

/// Both verdicts at the last minute at which one is sure, and both and blanks at the next one, so often.
fn both_sides_of_the_reach(seen: &Seen, times: usize) {
    for what in ["last sure 1", "last sure 2", "first unsure 0", "first unsure 1", "first unsure 2"] {
        seen.at_least(times, what);
    }
}

/// Offers the list to the archive, well-formed neighbours in packets of up to `most`: these are all taken, and what is
/// ill-formed is refused.
fn take_all(policy: &[u8], mut list: &[Offer], most: usize, buffers: &mut Buffers, seen: &mut Seen) {
    while let Some(first) = list.first() {
        let count = list.iter().take(most).take_while(|offer| offer.refusal.is_none()).count();
        if count > 1 {
            let packet: Vec<u8> = list[..count].iter().flat_map(|offer| offer.bytes.clone()).collect();
            let answer = archive::receive_packet(policy, &packet, buffers);
            assert_eq!(answer, PacketAnswer { taken: count, refusal: None }, "{packet:?}");
            seen.packet(&packet, answer);
        } else {
            let answer = archive::receive(policy, &first.bytes, buffers);
            let taken = Answer::Received(standing(&buffers.verdicts));
            assert_eq!(answer, first.refusal.map_or(taken, Answer::Refused), "{:?}", first.bytes);
            seen.answer("receive", answer);
        }
        list = &list[count.max(1)..];
    }
}

/// All reports of a trace, in a random order, some of them again, with ill-formed bytes between. At the end the record is
/// what they tell, the sheets are the oracle's, no verdict is missing below the reach, and those that stand are the trace's.
/// What comes then, of this trace or another, changes no fact and neither sheet.
fn complete_shift(random: &mut Random, policy: &Policy, trace: &Trace, seen: &mut Seen) {
    let bytes = generate::encode_policy(policy);
    let reports = generate::every_message(policy, trace);
    let messages: Vec<Vec<u8>> = reports.iter().map(generate::encode_message).collect();
    let mut buffers = inputs::filled_buffers(random, policy);
    assert_eq!(archive::open(&bytes, &mut buffers), Answer::Done);
    let mut learnt = buffers.clone();
    reports.iter().for_each(|report| learnt.learn(policy, report));

    let most = if messages.len() > 100 { 400 } else { random.pick(&[1, 1, 3, 20]) };
    take_all(&bytes, &list(random, policy, &messages, 20), most, &mut buffers, seen);
    assert!(
        buffers.numbers == learnt.numbers && buffers.facts == learnt.facts,
        "not learnt under {bytes:?}\n{trace:?}"
    );
    assert!(complete(policy, &buffers), "not complete under {bytes:?}\n{trace:?}");
    no_blanks(policy, trace, &buffers.verdicts, seen);
    are_the_traces(policy, trace, &buffers.verdicts);

    let full = buffers.clone();
    let again = &messages[random.below(messages.len())];
    assert_eq!(receive(&bytes, again, &mut buffers), Answer::Received(standing(&full.verdicts)));
    for offer in inputs::offers(random, policy, 3) {
        seen.answer("late", archive::receive(&bytes, &offer, &mut buffers));
    }
    let sheets = |buffers: &Buffers| [buffers.valuation.clone(), buffers.verdicts.clone()];
    let same = buffers.facts == full.facts && sheets(&buffers) == sheets(&full);
    assert!(same, "changed though complete under {bytes:?}\n{trace:?}");
    seen.verdicts(&full.verdicts);
}

/// The verdicts that stand are the trace's.
fn are_the_traces(policy: &Policy, trace: &Trace, verdicts: &[u8]) {
    let two_valued = two_valued_verdicts(policy, trace);
    let same = verdicts.iter().zip(&two_valued).all(|(shown, plain)| *shown == 0 || shown == plain);
    assert!(same, "not the trace's verdicts: {policy:?}\n{trace:?}");
}

/// What each job does: how many shifts under policies of which size.
const KINDS: [(Size, usize); 6] =
    [(Size::Tiny, 400), (Size::Small, 300), (Size::Medium, 40), (Size::Wide, 8), (Size::Long, 4), (Size::Largest, 1)];

#[test]
fn complete_shifts_leave_no_blanks() {
    let seen = rounds::run(11_200_000, 50 * KINDS.len(), |number, random, seen| {
        let (size, shifts) = KINDS[number % KINDS.len()];
        for _ in 0..shifts {
            let policy = near_sighted(random, size);
            let trace = inputs::trace(random, &policy, 12);
            complete_shift(random, &policy, &trace, seen);
            seen.one(&format!("{size:?} shifts"));
        }
    });
    seen.at_least(50, "Largest shifts");
    for what in ["receive accepted", "receive refused 7", "receive refused 8", "packet took many"] {
        seen.at_least(20_000, what);
    }
    for what in ["late accepted", "late refused 9"] {
        seen.at_least(5_000, what);
    }
    both_sides_of_the_reach(&seen, 1_000);
}

/// Messages of a trace, which tell some propositions each, come one by one, and some never. Whenever the record is complete,
/// if only for the propositions that some line names, no verdict is missing below the reach.
#[test]
fn a_record_may_be_complete_though_reports_are_missing() {
    const SIZES: [Size; 2] = [Size::Tiny, Size::Small];
    let seen = rounds::run(11_300_000, 40 * SIZES.len(), |number, random, seen| {
        for _ in 0..300 {
            let policy = near_sighted(random, SIZES[number % SIZES.len()]);
            let trace = inputs::trace(random, &policy, 4);
            let bytes = generate::encode_policy(&policy);
            let mut buffers = inputs::filled_buffers(random, &policy);
            assert_eq!(archive::open(&bytes, &mut buffers), Answer::Done);
            for message in generate::messages(random, &policy, &trace, 20) {
                let answer = archive::receive(&bytes, &generate::encode_message(&message), &mut buffers);
                assert_eq!(answer, Answer::Received(standing(&buffers.verdicts)), "{message:?} under {bytes:?}");
                if complete_for_lines(&policy, &buffers) {
                    no_blanks(&policy, &trace, &buffers.verdicts, seen);
                    seen.one("complete for the lines");
                    seen.add("complete", usize::from(complete(&policy, &buffers)));
                    seen.add("number missing", usize::from(buffers.numbers.contains(&NOT_KNOWN)));
                }
            }
        }
    });
    for what in ["complete for the lines", "complete", "number missing"] {
        seen.at_least(50_000, what);
    }
    both_sides_of_the_reach(&seen, 5_000);
}

/// The alive of component 0 at minute 0: it tells nothing, and both sheets are worked.
const NOTHING_NEW: [u8; 1] = [0x10];

/// Some numbers are known, as long as they tell of every minute what it is, and also facts at quiet minutes: messages may
/// tell it so or not.
#[test]
fn complete_knowledge_of_any_form() {
    const KINDS: [(Size, usize); 5] =
        [(Size::Tiny, 400), (Size::Small, 200), (Size::Medium, 20), (Size::Wide, 4), (Size::Long, 1)];
    let seen = rounds::run(11_400_000, 12 * KINDS.len(), |number, random, seen| {
        let (size, records) = KINDS[number % KINDS.len()];
        for _ in 0..records {
            let policy = near_sighted(random, size);
            let trace = inputs::trace(random, &policy, 12);
            let mut buffers = inputs::filled_buffers(random, &policy);
            generate::complete_knowledge(random, &policy, &trace, &mut buffers);
            assert!(complete(&policy, &buffers));
            let answer = receive(&generate::encode_policy(&policy), &NOTHING_NEW, &mut buffers);
            assert_eq!(answer, Answer::Received(standing(&buffers.verdicts)));
            no_blanks(&policy, &trace, &buffers.verdicts, seen);
            are_the_traces(&policy, &trace, &buffers.verdicts);
            seen.one(&format!("{size:?} records"));
            seen.add("number missing", usize::from(buffers.numbers.contains(&NOT_KNOWN)));
        }
    });
    seen.at_least(12, "Long records");
    seen.at_least(2_000, "number missing");
    both_sides_of_the_reach(&seen, 300);
}
