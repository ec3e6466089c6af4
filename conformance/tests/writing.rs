//! Writing policies and messages: archive and oracle agree in the answer and in every byte of the lent buffer, whatever
//! the fields and however long the buffer; what is written is read again, and what a reader takes is written again.

use conformance::inputs::{self, Size};
use conformance::process::root;
use conformance::rounds::{self, Seen};
use conformance::{archive, encode_message, encode_policy, open};
use oracle::generate::{self, Random};
use oracle::message::{self, Message};
use oracle::policy::{self, Policy};
use oracle::policy::{HIGHEST_BOUND, MOST_BYTES, MOST_COMPONENTS, MOST_MINUTES, MOST_PROPOSITIONS, MOST_SUBFORMULAS};
use oracle::refusal::*;
use oracle::write::{Line, MessageFields, PolicyFields};
use oracle::{Answer, Buffers, Refusal};
use std::fs;

/// What a writer answers: a length, or why nothing was written.
type Written = Result<usize, Refusal>;

fn refused(number: u8) -> Written {
    Err(Refusal { number, place: 0 })
}

/// A buffer with anything in it.
fn filled(random: &mut Random, length: usize) -> Vec<u8> {
    (0..length).map(|_| random.word() as u8).collect()
}

/// How many policies of which size a job has.
const SIZES: [(Size, usize); 6] =
    [(Size::Tiny, 60), (Size::Small, 60), (Size::Medium, 20), (Size::Wide, 6), (Size::Long, 10), (Size::Largest, 2)];

/// Runs jobs on policies of every size.
fn run(seed: u64, jobs: usize, job: impl Fn(&mut Random, &Policy, &mut Seen) + Sync) -> Seen {
    rounds::run(seed, jobs * SIZES.len(), |number, random, seen| {
        let (size, policies) = SIZES[number % SIZES.len()];
        for _ in 0..policies {
            let policy = inputs::policy(random, size);
            job(random, &policy, seen);
        }
    })
}

/// Writes into buffers of every length up to past the text's: into a shorter one nothing, with 11, and the same text into
/// every other; what is refused for another reason is refused for it at every length. Gives the text.
fn at_every_length(
    random: &mut Random,
    what: &str,
    seen: &mut Seen,
    write: impl Fn(&mut [u8]) -> Written,
) -> Option<Vec<u8>> {
    let mut longest = filled(random, MOST_BYTES + 3);
    let answer = write(&mut longest);
    let text = answer.ok().map(|length| longest[..length].to_vec());
    let end = text.as_ref().map_or(20, |text| text.len() + 3);
    for length in 0..=end {
        let mut out = filled(random, length);
        let written = write(&mut out);
        seen.writing(what, written);
        match &text {
            Some(text) if length < text.len() => assert_eq!(written, refused(SHORT_BUFFER)),
            Some(text) => assert_eq!((written, &out[..text.len()]), (answer, &text[..])),
            None => assert_eq!(written, answer),
        }
    }
    text
}

#[test]
fn policies_into_buffers_of_every_length() {
    let seen = run(7_000_000, 4, |random, policy, seen| {
        let fields = generate::stray_policy_fields(random, policy);
        if let Some(text) = at_every_length(random, "policy", seen, |out| encode_policy(&fields, out)) {
            let read = policy::read(&text).unwrap();
            assert_eq!(PolicyFields::from(&read), fields);
            assert_eq!(archive::open(&text, &mut Buffers::sized(&read)), Answer::Done);
            seen.one("policy opened");
        }
    });
    for what in ["policy written", "policy refused 2", "policy refused 3", "policy refused 4", "policy refused 11"] {
        seen.at_least(500, what);
    }
    seen.at_least(100, "policy opened");
}

/// Messages of a trace are all taken; others may be in conflict even with what is known from the start.
#[test]
fn messages_into_buffers_of_every_length() {
    let seen = run(7_100_000, 4, |random, policy, seen| {
        let bytes = generate::encode_policy(policy);
        let trace = inputs::trace(random, policy, 4);
        let mut state = inputs::filled_buffers(random, policy);
        assert_eq!(archive::open(&bytes, &mut state), Answer::Done);
        let fresh = state.clone();
        for _ in 0..3 {
            let sent = MessageFields::from(&generate::message(random, policy, &trace));
            let text = message_at_every_length(random, &bytes, policy, &sent, seen).unwrap();
            assert!(matches!(archive::receive(&bytes, &text, &mut state), Answer::Received(_)), "{sent:?}");
            let stray = generate::stray_message_fields(random, policy);
            if let Some(text) = message_at_every_length(random, &bytes, policy, &stray, seen) {
                let answer = archive::receive(&bytes, &text, &mut fresh.clone());
                seen.answer("stray", answer);
                let conflict = Answer::Refused(Refusal { number: CONFLICT, place: 0 });
                assert!(matches!(answer, Answer::Received(_)) || answer == conflict, "{stray:?}: {answer:?}");
            }
        }
    });
    for what in ["message written", "message refused 8", "message refused 11"] {
        seen.at_least(3_000, what);
    }
    seen.at_least(50, "stray accepted");
    seen.at_least(50, "stray refused 9");
}

fn message_at_every_length(
    random: &mut Random,
    bytes: &[u8],
    policy: &Policy,
    fields: &MessageFields,
    seen: &mut Seen,
) -> Option<Vec<u8>> {
    let text = at_every_length(random, "message", seen, |out| encode_message(bytes, fields, out))?;
    assert_eq!(message::read(policy, &text).map(|read| MessageFields::from(&read)), Ok(*fields));
    Some(text)
}

/// Zero, past the end, and numbers that would be this one if they were cut to one, two or four bytes.
fn past(right: usize, most: usize) -> impl Iterator<Item = usize> {
    let numbers = [0, most + 1, right + 256, right + 65536, right + (1 << 32), usize::MAX];
    numbers.into_iter().filter(move |number| !(1..=most).contains(number))
}

/// The policy with one number of its heading out of range.
fn bad_headings(good: &PolicyFields) -> Vec<PolicyFields> {
    let propositions = past(good.propositions, MOST_PROPOSITIONS);
    let components = past(good.components, MOST_COMPONENTS);
    let minutes = past(good.minutes, MOST_MINUTES);
    let counts = [0, MOST_SUBFORMULAS + 1, good.lines.len() + 256, good.lines.len() + 65536];
    let lines = |count| good.lines.iter().copied().cycle().take(count).collect();
    propositions
        .map(|propositions| PolicyFields { propositions, ..good.clone() })
        .chain(components.map(|components| PolicyFields { components, ..good.clone() }))
        .chain(minutes.map(|minutes| PolicyFields { minutes, ..good.clone() }))
        .chain(counts.map(|count| PolicyFields { lines: lines(count), ..good.clone() }))
        .collect()
}

/// The line with this number and one field out of range.
fn bad_lines(good: Line, number: u16, propositions: u16) -> Vec<Line> {
    let any = vec![1, 255, 256, 1023, 65535];
    let operand = |allowed: bool, right: u16, end: u16| {
        if allowed {
            vec![end, end + 1, right + 256, 65535]
        } else {
            any.clone()
        }
    };
    let end = if good.kind == 1 { propositions } else { number };
    let bounded = [4, 5, 8, 9, 10, 11].contains(&good.kind);
    let kinds = [12, 13, 255, good.kind + 256, 65535];
    let firsts = operand(good.kind >= 1, good.first, end);
    let seconds = operand((3..=7).contains(&good.kind), good.second, end);
    let lowers = if bounded { vec![good.upper + 1, 65535] } else { any.clone() };
    let mut uppers = if bounded { vec![HIGHEST_BOUND as u16 + 1, good.upper + 1024, 65535] } else { any.clone() };
    uppers.extend(good.lower.checked_sub(1).filter(|_| bounded));
    kinds
        .into_iter()
        .map(|kind| Line { kind, ..good })
        .chain(firsts.into_iter().map(|first| Line { first, ..good }))
        .chain(seconds.into_iter().map(|second| Line { second, ..good }))
        .chain(lowers.into_iter().map(|lower| Line { lower, ..good }))
        .chain(uppers.into_iter().map(|upper| Line { upper, ..good }))
        .collect()
}

/// The policy with no rule, and, if it has so many lines, with nine.
fn bad_rules(good: &PolicyFields) -> Vec<PolicyFields> {
    let with = |rules: usize| {
        let lines = good.lines.iter().enumerate();
        let lines = lines.map(|(number, line)| Line { rule: number < rules, ..*line }).collect();
        PolicyFields { lines, ..good.clone() }
    };
    [0, 9].into_iter().filter(|rules| *rules <= good.lines.len()).map(with).collect()
}

/// What is wrong is told whether or not there is room.
#[test]
fn each_field_of_a_policy_out_of_range_in_turn() {
    let seen = run(7_200_000, 1, |random, policy, seen| {
        let good = PolicyFields::from(policy);
        seen.kinds(policy);
        let mut refuse = |fields: &PolicyFields, number: u8| {
            for length in [0, MOST_BYTES] {
                let answer = encode_policy(fields, &mut filled(random, length));
                assert_eq!(answer, refused(number), "{fields:?}");
                seen.writing("policy", answer);
            }
        };
        bad_headings(&good).iter().for_each(|fields| refuse(fields, BAD_HEADING));
        bad_rules(&good).iter().for_each(|fields| refuse(fields, RULE_COUNT));
        for (number, line) in good.lines.iter().enumerate() {
            let mut fields = good.clone();
            for bad in bad_lines(*line, number as u16, policy.propositions as u16) {
                fields.lines[number] = bad;
                refuse(&fields, BAD_SUBFORMULA);
            }
        }
    });
    for (number, times) in [(BAD_HEADING, 2_000), (BAD_SUBFORMULA, 10_000), (RULE_COUNT, 300)] {
        seen.at_least(times, &format!("policy refused {number}"));
    }
    seen.every_kind_at_least(20);
}

/// Each kind with every choice of fields that are 1, the others 0, after two lines. What is written is opened.
#[test]
fn each_kind_with_every_choice_of_fields() {
    let mut seen = Seen::default();
    for kind in 0..=300 {
        for choice in 0..16 {
            let [first, second, lower, upper] = [0, 1, 2, 3].map(|field| choice >> field & 1);
            let line = Line { kind, first, second, lower, upper, rule: false };
            let fields = with_lines(&[TRUE, RULE, line]);
            let mut out = [0x5A; 20];
            let answer = encode_policy(&fields, &mut out);
            seen.writing("policy", answer);
            if let Ok(length) = answer {
                seen.one(&format!("kind {kind}"));
                let policy = policy::read(&out[..length]).unwrap();
                assert_eq!(PolicyFields::from(&policy), fields);
                assert_eq!(open(&out[..length], &mut Buffers::sized(&policy)), Answer::Done);
            }
        }
    }
    println!("{seen:?}");
    for (kind, times) in [1, 2, 2, 4, 12, 12, 4, 4, 6, 6, 6, 6].into_iter().enumerate() {
        seen.at_least(times, &format!("kind {kind}"));
    }
    seen.at_least(301 * 16 - 65, "policy refused 3");
}

/// The message's fields with one of them out of range.
fn bad_messages(policy: &Policy, good: MessageFields) -> Vec<MessageFields> {
    let minutes = if good.alive { policy.minutes + 1 } else { policy.minutes };
    let past = |right: usize, end: usize| [end, end + 1, right + 65536, right + (1 << 32), usize::MAX];
    let components = past(good.component, policy.components).into_iter().chain([256, good.component + 256]);
    let numbers = past(good.number, 65536).into_iter().chain((!good.alive).then_some(0));
    let names = (0..32).filter(|bit| good.alive || *bit >= policy.propositions);
    let values = (0..32).filter(|bit| good.named >> bit & 1 == 0);
    components
        .map(|component| MessageFields { component, ..good })
        .chain(past(good.minute, minutes).map(|minute| MessageFields { minute, ..good }))
        .chain(numbers.map(|number| MessageFields { number, ..good }))
        .chain(names.map(|bit| MessageFields { named: good.named | 1 << bit, ..good }))
        .chain(values.map(|bit| MessageFields { values: good.values | 1 << bit, ..good }))
        .collect()
}

#[test]
fn each_field_of_a_message_out_of_range_in_turn() {
    let seen = run(7_300_000, 2, |random, policy, seen| {
        let bytes = generate::encode_policy(policy);
        let trace = inputs::trace(random, policy, 4);
        let good = MessageFields::from(&generate::message(random, policy, &trace));
        for fields in bad_messages(policy, good) {
            for length in [0, 20] {
                let answer = encode_message(&bytes, &fields, &mut filled(random, length));
                assert_eq!(answer, refused(BAD_MESSAGE), "{fields:?}");
                seen.writing(if good.alive { "alive" } else { "observation" }, answer);
            }
        }
    });
    seen.at_least(3_000, "alive refused 8");
    seen.at_least(3_000, "observation refused 8");
}

/// A number of any size, small ones more often.
fn any(random: &mut Random) -> usize {
    let shift = random.below(64);
    (random.word() >> shift) as usize
}

/// This number, or any.
fn either(random: &mut Random, right: usize) -> usize {
    let any = any(random);
    random.pick(&[right, any])
}

#[test]
fn fields_of_any_numbers() {
    let seen = run(7_400_000, 20, |random, policy, seen| {
        let line = |random: &mut Random| {
            let [kind, first, second, lower, upper] = [(); 5].map(|()| any(random) as u16);
            Line { kind, first, second, lower, upper, rule: random.once_in(3) }
        };
        let fields = PolicyFields {
            propositions: either(random, policy.propositions),
            components: either(random, policy.components),
            minutes: either(random, policy.minutes),
            lines: (0..random.below(70)).map(|_| line(random)).collect(),
        };
        let length = random.below(MOST_BYTES);
        seen.writing("policy", encode_policy(&fields, &mut filled(random, length)));
        let fields = MessageFields {
            component: either(random, 0),
            alive: random.once_in(3),
            minute: either(random, policy.minutes - 1),
            number: either(random, 1),
            named: either(random, 0) as u32,
            values: either(random, 0) as u32,
        };
        let length = random.below(20);
        seen.writing("message", encode_message(&generate::encode_policy(policy), &fields, &mut filled(random, length)));
    });
    for what in ["policy refused 2", "policy refused 3", "message refused 8", "message written"] {
        seen.at_least(50, what);
    }
}

const TRUE: Line = Line { kind: 0, first: 0, second: 0, lower: 0, upper: 0, rule: false };
const RULE: Line = Line { rule: true, ..TRUE };
const BAD: Line = Line { kind: 12, ..TRUE };

/// Two propositions, two components, three minutes and these lines.
fn with_lines(lines: &[Line]) -> PolicyFields {
    PolicyFields { propositions: 2, components: 2, minutes: 3, lines: lines.to_vec() }
}

fn policy_answer(fields: &PolicyFields, length: usize) -> Written {
    encode_policy(fields, &mut vec![0x5A; length])
}

#[test]
fn fields_that_are_all_zero() {
    let none = PolicyFields { propositions: 0, components: 0, minutes: 0, lines: Vec::new() };
    assert_eq!(policy_answer(&none, MOST_BYTES), refused(BAD_HEADING));
    assert_eq!(policy_answer(&PolicyFields { lines: vec![TRUE; 64], ..none }, MOST_BYTES), refused(BAD_HEADING));
    assert_eq!(policy_answer(&with_lines(&[TRUE; 64]), MOST_BYTES), refused(RULE_COUNT));
    let policy = generate::encode_policy(&inputs::policy(&mut Random::new(7_500_000), Size::Small));
    let zero = MessageFields::default();
    assert_eq!(encode_message(&policy, &zero, &mut [0x5A; 14]), refused(BAD_MESSAGE));
    let mut out = [0x5A; 2];
    assert_eq!(encode_message(&policy, &MessageFields { alive: true, ..zero }, &mut out), Ok(1));
    assert_eq!(out, [0x10, 0x5A]);
}

/// Everything is wrong at once, and then one thing after another is mended.
#[test]
fn a_policy_is_refused_for_its_heading_then_a_line_then_its_rules_then_the_buffer() {
    let mut fields = PolicyFields { components: 17, ..with_lines(&[BAD, TRUE]) };
    assert_eq!(policy_answer(&fields, 0), refused(BAD_HEADING));
    fields.components = 16;
    assert_eq!(policy_answer(&fields, 0), refused(BAD_SUBFORMULA));
    fields.lines[0] = TRUE;
    assert_eq!(policy_answer(&fields, 0), refused(RULE_COUNT));
    fields.lines[0] = RULE;
    assert_eq!(policy_answer(&fields, 6), refused(SHORT_BUFFER));
    assert_eq!(policy_answer(&fields, 7), Ok(7));
    // Whichever stands first in the fields.
    assert_eq!(policy_answer(&with_lines(&[&[RULE; 9][..], &[BAD]].concat()), 0), refused(BAD_SUBFORMULA));
    assert_eq!(policy_answer(&with_lines(&[BAD; 65]), 0), refused(BAD_HEADING));
    assert_eq!(policy_answer(&PolicyFields { minutes: 1025, ..with_lines(&[BAD]) }, 0), refused(BAD_HEADING));
}

#[test]
fn a_message_is_refused_for_its_policy_then_its_fields_then_the_buffer() {
    let bad = MessageFields { component: 9, minute: 9, named: 9, values: 6, ..MessageFields::default() };
    let write = |policy: &[u8]| encode_message(policy, &bad, &mut []);
    let policy = [2, 2, 3, 0, 2, 0x20, 0x01, 1];
    let refused_at = |number, place| Err(Refusal { number, place });
    assert_eq!(write(&[]), refused_at(TRUNCATED_POLICY, 0));
    assert_eq!(write(&policy[..7]), refused_at(TRUNCATED_POLICY, 7));
    assert_eq!(write(&[&policy[..], &[0; 2]].concat()), refused_at(TRUNCATED_POLICY, 8));
    assert_eq!(write(&[2, 2, 1, 4, 2, 0x40]), refused_at(BAD_HEADING, 2));
    assert_eq!(write(&[2, 2, 3, 0, 2, 0x20, 0x01, 12]), refused_at(BAD_SUBFORMULA, 6));
    assert_eq!(write(&[2, 2, 3, 0, 2, 0x00, 0x01, 1]), refused_at(RULE_COUNT, 0));
    assert_eq!(write(&policy), refused(BAD_MESSAGE));
    let good = MessageFields { number: 1, ..MessageFields::default() };
    assert_eq!(encode_message(&policy, &good, &mut [0x5A; 2]), refused(SHORT_BUFFER));
    assert_eq!(encode_message(&policy, &good, &mut [0x5A; 3]), Ok(3));
}

/// Under policies that are damaged, stray or noise.
#[test]
fn messages_under_any_policy() {
    let seen = run(7_600_000, 20, |random, policy, seen| {
        let bytes = match random.below(4) {
            0 => generate::damaged(random, &generate::encode_policy(policy)),
            1 => inputs::noise(random, MOST_BYTES),
            _ => generate::stray_policy(random, policy),
        };
        let fields = generate::stray_message_fields(random, policy);
        let length = random.below(20);
        let answer = encode_message(&bytes, &fields, &mut filled(random, length));
        if let Err(refusal) = policy::read(&bytes) {
            assert_eq!(answer, Err(refusal), "{bytes:?}");
        }
        seen.writing("message", answer);
    });
    for what in ["written", "refused 1", "refused 2", "refused 3", "refused 4", "refused 8", "refused 11"] {
        seen.at_least(50, &format!("message {what}"));
    }
}

/// One byte for a component, two for a sequence number: 256 is no component, and 65535 is a number.
#[test]
fn numbers_are_not_cut_to_their_bytes() {
    let mut random = Random::new(7_700_000);
    for size in Size::ALL {
        let policy = inputs::policy(&mut random, size);
        let bytes = generate::encode_policy(&policy);
        for alive in [false, true] {
            let good = MessageFields { alive, number: 65535, ..MessageFields::default() };
            let mut out = [0x5A; 4];
            assert_eq!(encode_message(&bytes, &good, &mut out), Ok(3));
            assert_eq!(out, [u8::from(alive) << 4 | 0x04, 0xFF, 0xFF, 0x5A]);
            for bad in [
                MessageFields { component: 256, ..good },
                MessageFields { number: 65536, ..good },
                MessageFields { number: 65537, ..good },
                MessageFields { minute: 65536, ..good },
            ] {
                assert_eq!(encode_message(&bytes, &bad, &mut out), refused(BAD_MESSAGE), "{bad:?}");
            }
        }
    }
}

/// Operands that are 0 are not written, so that the first two lines can't have all fields.
#[test]
fn the_longest_policy_and_the_longest_message() {
    let mut random = Random::new(7_800_000);
    let mut lines = vec![Line { kind: 5, first: 1, second: 1, lower: 1023, upper: 1023, rule: false }; 64];
    lines[0] = Line { kind: 1, first: 31, ..TRUE };
    lines[1] = Line { kind: 4, lower: 1, upper: 1023, ..TRUE };
    lines[56..].iter_mut().for_each(|line| line.rule = true);
    let fields = PolicyFields { propositions: 32, components: 16, minutes: 1024, lines };
    let mut seen = Seen::default();
    let policy = at_every_length(&mut random, "policy", &mut seen, |out| encode_policy(&fields, out)).unwrap();
    assert_eq!(policy.len(), MOST_BYTES - 7);
    for values in [0, 1, 0x8000_0000, 0x00FF_FF00, u32::MAX] {
        let number = 65535;
        let fields = MessageFields { component: 15, alive: false, minute: 1023, number, named: u32::MAX, values };
        let write = |out: &mut [u8]| encode_message(&policy, &fields, out);
        assert_eq!(at_every_length(&mut random, "message", &mut seen, write).unwrap().len(), 14);
    }
}

extern "C" {
    /// As the header declares it.
    fn zankezurt_encode_policy(
        propositions: usize,
        components: usize,
        minutes: usize,
        lines: usize,
        fields: *const [zankezurt::Line; MOST_SUBFORMULAS],
        out: *mut u8,
        out_length: usize,
        detail: *mut usize,
    ) -> u8;
}

/// The call as C makes it: of 64 lines so many are to be looked at.
fn encode_counted(
    sizes: &PolicyFields,
    count: usize,
    lines: &[zankezurt::Line; MOST_SUBFORMULAS],
    out: &mut [u8],
) -> Written {
    let PolicyFields { propositions, components, minutes, .. } = *sizes;
    let mut detail = 0;
    // the lines are 64, and the buffer is lent as its own pointer and length
    let number = unsafe {
        let (out, length) = (out.as_mut_ptr(), out.len());
        zankezurt_encode_policy(propositions, components, minutes, count, lines, out, length, &mut detail)
    };
    match number {
        0 => Ok(detail),
        _ => Err(Refusal { number, place: detail }),
    }
}

fn any_line(random: &mut Random) -> zankezurt::Line {
    let [kind, first, second, lower, upper, rule] = [(); 6].map(|()| random.word() as u16);
    zankezurt::Line { kind, first, second, lower, upper, rule }
}

/// They hold anything. A line more, and one of those is looked at; a number of lines past 64, and none is.
#[test]
fn lines_past_the_count_are_not_looked_at() {
    let seen = run(7_900_000, 4, |random, policy, seen| {
        let fields = PolicyFields::from(policy);
        let count = fields.lines.len();
        let mut lines = [(); MOST_SUBFORMULAS].map(|()| any_line(random));
        for (line, field) in lines.iter_mut().zip(&fields.lines) {
            let rule = if field.rule { random.between(1, 65535) as u16 } else { 0 };
            *line = zankezurt::Line { rule, ..archive::line(field) };
        }
        let before = filled(random, MOST_BYTES);
        let (mut out, mut expected) = (before.clone(), before.clone());
        let answer = encode_counted(&fields, count, &lines, &mut out);
        assert_eq!(answer, oracle::encode_policy(&fields, &mut expected), "{fields:?}");
        assert!(answer.is_ok() && out == expected, "{fields:?}");
        seen.add("fewer than 64", usize::from(count < MOST_SUBFORMULAS));
        let mut out = before.clone();
        if count < MOST_SUBFORMULAS {
            lines[count].kind |= 16;
            assert_eq!(encode_counted(&fields, count + 1, &lines, &mut out), refused(BAD_SUBFORMULA), "{lines:?}");
        }
        for many in [0, 65, count + 256, count + 65536, count + (1 << 32), usize::MAX] {
            assert_eq!(encode_counted(&fields, many, &lines, &mut out), refused(BAD_HEADING), "{many}");
        }
        assert!(out == before, "refused and changed");
    });
    seen.at_least(100, "fewer than 64");
}

/// Writes what was read of these bytes: into a buffer of their length, that is all of it.
fn write_policy_again(bytes: &[u8], policy: &Policy) {
    let mut out = vec![0x5A; bytes.len()];
    assert_eq!(encode_policy(&PolicyFields::from(policy), &mut out), Ok(bytes.len()));
    assert_eq!(out, bytes);
}

fn write_message_again(policy: &[u8], bytes: &[u8], message: &Message) {
    let mut out = vec![0x5A; bytes.len()];
    assert_eq!(encode_message(policy, &MessageFields::from(message), &mut out), Ok(bytes.len()));
    assert_eq!(out, bytes);
}

#[test]
fn accepted_policies_and_messages_are_written_again_byte_for_byte() {
    let seen = run(8_000_000, 6, |random, policy, seen| {
        let bytes = generate::encode_policy(policy);
        write_policy_again(&bytes, policy);
        for _ in 0..4 {
            let other = if random.once_in(2) {
                generate::damaged(random, &bytes)
            } else {
                generate::stray_policy(random, policy)
            };
            if let Ok(read) = policy::read(&other) {
                write_policy_again(&other, &read);
                seen.one("other policy");
            }
        }
        for offer in inputs::offers(random, policy, 12) {
            if let Ok(read) = message::read(policy, &offer) {
                write_message_again(&bytes, &offer, &read);
                seen.one("message");
            }
        }
    });
    seen.at_least(500, "other policy");
    seen.at_least(3_000, "message");
}

/// A policy after its length of two bytes, and messages, each after its length of one byte.
#[test]
fn the_demos_are_written_again_byte_for_byte() {
    for (demo, messages) in [("bakery", 10), ("small-shift", 3)] {
        let input = fs::read(root().join(format!("demo/{demo}.bin"))).unwrap();
        let (bytes, mut rest) = input[2..].split_at(u16::from_le_bytes([input[0], input[1]]).into());
        let policy = policy::read(bytes).unwrap();
        write_policy_again(bytes, &policy);
        let mut count = 0;
        while let Some((length, after)) = rest.split_first() {
            let (message, others) = after.split_at((*length).into());
            write_message_again(bytes, message, &message::read(&policy, message).unwrap());
            rest = others;
            count += 1;
        }
        assert_eq!(count, messages);
    }
}
