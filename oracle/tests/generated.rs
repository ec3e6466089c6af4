//! Random policies and messages from tiny to the largest: the quicker forms equal the plain ones, encodings are read
//! back, a packet is its takes one by one, refusals change nothing and all of them occur, and what is known in full is
//! read in full.

use oracle::generate::{self, Limits, Random, LARGEST, MEDIUM, SMALL, TINY};
use oracle::knowledge::{sound, time_points, time_points_of_many};
use oracle::policy::{Formula, Policy};
use oracle::program::run;
use oracle::reading::{two_valued_verdicts, valuation, valuation_of_many, verdicts};
use oracle::trace::Trace;
use oracle::{lookup, message, open, policy, receive, receive_packet, Answer, Buffers, Look, PacketAnswer, Refusal};

#[test]
fn encodings_are_read_back() {
    let mut random = Random::new(11);
    for limits in [TINY, SMALL, MEDIUM, LARGEST] {
        for _ in 0..100 {
            let policy = generate::policy(&mut random, &limits);
            let bytes = generate::encode_policy(&policy);
            assert_eq!(policy::read(&bytes).as_ref(), Ok(&policy));
            let trace = generate::trace(&mut random, &policy, 3);
            for message in generate::messages(&mut random, &policy, &trace, 8) {
                let bytes = generate::encode_message(&message);
                assert_eq!(message::read(&policy, &bytes), Ok(message));
                assert!(trace.admits(&message));
            }
        }
    }
    let largest = generate::largest_policy(&mut random);
    assert_eq!(policy::read(&generate::encode_policy(&largest)), Ok(largest));
}

#[test]
fn the_quicker_reading_equals_the_plain_sums() {
    let mut random = Random::new(12);
    let longer = Limits { minutes: 40, bound: 60, ..SMALL };
    for limits in [TINY, SMALL, longer] {
        for _ in 0..300 {
            let policy = generate::policy(&mut random, &limits);
            let trace = generate::trace(&mut random, &policy, 2);
            let mut buffers = Buffers::sized(&policy);
            generate::sound_knowledge(&mut random, &policy, &trace, &mut buffers);
            assert!(sound(&policy, &buffers));
            assert_eq!(time_points_of_many(&policy, &buffers), time_points(&policy, &buffers));
            assert_eq!(valuation_of_many(&policy, &buffers), valuation(&policy, &buffers));
            generate::damage_buffers(&mut random, &policy, &mut buffers);
            assert_eq!(time_points_of_many(&policy, &buffers), time_points(&policy, &buffers));
            assert_eq!(valuation_of_many(&policy, &buffers), valuation(&policy, &buffers));
        }
    }
}

/// On longer runs than the plain forms read, with few and with many observations, and with full gaps among them.
#[test]
fn the_quicker_time_points_equal_the_plain_ones() {
    let mut random = Random::new(19);
    let mut seen = [0; 3];
    let longer = Limits { minutes: 300, subformulas: 1, ..MEDIUM };
    for round in 0..160 {
        let policy = generate::policy(&mut random, &longer);
        let mut trace = generate::trace(&mut random, &policy, 2);
        // From one minute on, a component observes in each.
        let busy = random.below(policy.minutes);
        trace.observed[0][busy..].fill(true);
        let mut buffers = Buffers::sized(&policy);
        generate::sound_knowledge(&mut random, &policy, &trace, &mut buffers);
        if round % 4 == 0 {
            generate::damage_buffers(&mut random, &policy, &mut buffers);
        }
        let points = time_points(&policy, &buffers);
        assert_eq!(time_points_of_many(&policy, &buffers), points);
        points.iter().for_each(|point| seen[point.code() as usize] += 1);
    }
    assert!(seen.iter().all(|times| *times > 1_000), "{seen:?}");
}

#[test]
fn the_first_message_is_read_as_it_is_alone() {
    let mut random = Random::new(17);
    for _ in 0..2_000 {
        let policy = generate::policy(&mut random, &SMALL);
        let trace = generate::trace(&mut random, &policy, 1);
        let offers = right_lengths(&mut random, &policy, &trace, 2);
        let packet = offers.concat();
        let (message, rest) = message::read_first(&policy, &packet);
        assert_eq!((message, rest), (message::read(&policy, &offers[0]), &packet[offers[0].len()..]));
    }
}

/// Messages of the trace and stray ones, none of them cut or followed by bytes.
fn right_lengths(random: &mut Random, policy: &Policy, trace: &Trace, count: usize) -> Vec<Vec<u8>> {
    let mut offer = |_| match random.below(count) {
        0 => generate::stray_message(random, policy),
        _ => generate::encode_message(&generate::message(random, policy, trace)),
    };
    (0..count).map(&mut offer).collect()
}

#[test]
fn a_packet_is_its_takes_one_by_one() {
    let mut random = Random::new(18);
    let mut seen = [0; 13];
    for round in 0..1_500 {
        let limits = if round % 10 == 0 { MEDIUM } else { SMALL };
        let policy = generate::policy(&mut random, &limits);
        let trace = generate::trace(&mut random, &policy, 1);
        let bytes = generate::encode_policy(&policy);
        let mut buffers = Buffers::sized(&policy);
        open(&bytes, &mut buffers);
        let count = random.between(2, 6);
        let offers = right_lengths(&mut random, &policy, &trace, count);
        let mut alone = buffers.clone();
        let expected = one_by_one(&bytes, &offers, &mut alone);
        assert_eq!(receive_packet(&bytes, &offers.concat(), &mut buffers), expected);
        assert_eq!(buffers, alone);
        seen[expected.refusal.map_or(0, |refusal| refusal.number as usize)] += 1;
    }
    assert!([0, 8, 9].into_iter().all(|number| seen[number] >= 50), "{seen:?}");
}

/// Single takes until one is refused.
fn one_by_one(policy: &[u8], offers: &[Vec<u8>], buffers: &mut Buffers) -> PacketAnswer {
    let mut start = 0;
    for (taken, offer) in offers.iter().enumerate() {
        if let Answer::Refused(Refusal { number, place }) = receive(policy, offer, buffers) {
            return PacketAnswer { taken, refusal: Some(Refusal { number, place: start + place }) };
        }
        start += offer.len();
    }
    PacketAnswer { taken: offers.len(), refusal: None }
}

/// How many minutes past its own a subformula may look.
fn reach(policy: &Policy, number: usize) -> usize {
    let of = |operand| reach(policy, operand);
    match policy.subformulas[number].formula {
        Formula::True | Formula::Proposition(_) => 0,
        Formula::Not(first) => of(first),
        Formula::Or(first, second) | Formula::And(first, second) | Formula::Implies(first, second) => {
            of(first).max(of(second))
        }
        Formula::Since(parts) => of(parts.first).max(of(parts.second)),
        Formula::Until(parts) => parts.upper + of(parts.first).max(of(parts.second)),
        Formula::Once(span) | Formula::Historically(span) => of(span.first),
        Formula::Eventually(span) | Formula::Always(span) => span.upper + of(span.first),
    }
}

#[test]
fn with_all_known_the_three_valued_verdicts_are_the_two_valued_ones() {
    let mut random = Random::new(13);
    let mut whole = 0;
    for limits in [TINY, SMALL, Limits { minutes: 60, subformulas: 8, bound: 10, ..SMALL }] {
        for _ in 0..150 {
            let policy = generate::policy(&mut random, &limits);
            let trace = generate::trace(&mut random, &policy, 2);
            let mut buffers = Buffers::sized(&policy);
            buffers.forget(&policy);
            for message in generate::every_message(&policy, &trace) {
                buffers.learn(&policy, &message);
            }
            let shown = verdicts(&policy, &time_points(&policy, &buffers), &valuation(&policy, &buffers));
            let expected = two_valued_verdicts(&policy, &trace);
            for (rule, number) in policy.rules().into_iter().enumerate() {
                let end = policy.minutes.saturating_sub(reach(&policy, number));
                let row = rule * policy.minutes..rule * policy.minutes + end;
                assert_eq!(shown[row.clone()], expected[row]);
                whole += end;
            }
        }
    }
    assert!(whole > 1000, "{whole}");
}

#[test]
fn every_refusal_occurs_and_changes_nothing() {
    let mut random = Random::new(14);
    let mut seen = [0; 13];
    for round in 0..1500 {
        let limits = if round % 10 == 0 { MEDIUM } else { SMALL };
        let policy = generate::policy(&mut random, &limits);
        let trace = generate::trace(&mut random, &policy, 1);
        let mut buffers = Buffers::sized(&policy);
        let bytes = generate::encode_policy(&policy);
        assert_eq!(open(&bytes, &mut buffers), Answer::Done);
        for offer in generate::offers(&mut random, &policy, &trace, 6) {
            count(&mut seen, receive_checked(&bytes, &offer, &mut buffers));
        }
        match random.below(4) {
            0 => generate::damage_buffers(&mut random, &policy, &mut buffers),
            1 => generate::resize_buffers(&mut random, &mut buffers),
            _ => (),
        }
        let other = match random.below(4) {
            0 => generate::damaged(&mut random, &bytes),
            1 => generate::stray_policy(&mut random, &policy),
            _ => bytes,
        };
        let offer = generate::encode_message(&generate::message(&mut random, &policy, &trace));
        count(&mut seen, receive_checked(&other, &offer, &mut buffers));
        let rule = random.below(policy.rules().len() + 1);
        let minute = random.below(policy.minutes + 1);
        if let Look::Refused(refusal) = lookup(&other, &buffers.verdicts, rule, minute) {
            seen[refusal.number as usize] += 1;
        }
    }
    // 11 is a writer's.
    assert!((0..13).filter(|number| *number != 11).all(|number| seen[number] >= 10), "{seen:?}");
}

fn count(seen: &mut [usize; 13], answer: Answer) {
    match answer {
        Answer::Done => panic!("a message was opened"),
        Answer::Received(_) => seen[0] += 1,
        Answer::Refused(refusal) => seen[refusal.number as usize] += 1,
    }
}

fn receive_checked(policy: &[u8], offer: &[u8], buffers: &mut Buffers) -> Answer {
    let before = buffers.clone();
    let answer = receive(policy, offer, buffers);
    if let Answer::Refused(_) = answer {
        assert_eq!(*buffers, before);
    }
    answer
}

#[test]
fn the_largest_policy_opens_and_receives() {
    let mut random = Random::new(15);
    let policy = generate::largest_policy(&mut random);
    let trace = generate::trace(&mut random, &policy, 2);
    let bytes = generate::encode_policy(&policy);
    let mut buffers = Buffers::sized(&policy);
    assert_eq!(open(&bytes, &mut buffers), Answer::Done);
    for message in generate::messages(&mut random, &policy, &trace, 4) {
        let answer = receive(&bytes, &generate::encode_message(&message), &mut buffers);
        assert!(matches!(answer, Answer::Received(_)));
    }
}

#[test]
fn program_inputs_of_every_kind() {
    let mut random = Random::new(16);
    let (mut refused, mut verdicts) = (0, 0);
    for _ in 0..400 {
        let text = run(&generate::program_input(&mut random, &SMALL, 12)).text;
        let last = text.lines().last().unwrap();
        assert!(text.ends_with('\n') && (last.starts_with("taken ") || last.starts_with("card refused ")));
        refused += usize::from(text.starts_with("card refused "));
        verdicts += text.lines().count() - 1;
    }
    assert!(refused > 20 && verdicts > 200, "{refused} {verdicts}");
}

/// This seed cuts the policy to no bytes and then picks a wrong length for it.
#[test]
fn a_program_input_whose_policy_is_cut_to_nothing() {
    let input = generate::program_input(&mut Random::new(7508), &TINY, 0);
    assert!(run(&input).text.starts_with("card refused 1 at "), "{input:?}");
}
