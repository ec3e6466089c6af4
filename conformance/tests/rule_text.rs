//! Rules typed as text: archive and oracle agree in number, place and every byte of the lent buffer, whatever the text, the
//! sizes and the buffer's length; and the policy of an accepted text is read, and its sheet is the term's.

use conformance::rounds;
use conformance::{compile_rule, inputs, open, receive};
use oracle::generate::{self, Random};
use oracle::generate_rules::{self, grammatical, nested, rule, Numbers};
use oracle::policy::{self, Policy, MOST_BYTES, MOST_COMPONENTS, MOST_MINUTES, MOST_PROPOSITIONS};
use oracle::reading::{expression_in, expression_sheets};
use oracle::refusal::*;
use oracle::rule_grammar::parsed;
use oracle::{rule_text, Answer, Buffers, Refusal};

/// What the call answers: a length, or why nothing was written.
type Written = Result<usize, Refusal>;

fn refused(number: u8, place: usize) -> Written {
    Err(Refusal { number, place })
}

/// A buffer with anything in it.
fn filled(random: &mut Random, length: usize) -> Vec<u8> {
    (0..length).map(|_| random.word() as u8).collect()
}

/// A buffer that is empty, near this length or near the longest policy's.
fn room(random: &mut Random, length: usize) -> usize {
    let any = random.below(MOST_BYTES + 4);
    random.pick(&[0, length.saturating_sub(1), length, length + 1, MOST_BYTES, MOST_BYTES + 3, any])
}

/// Texts of every kind: 160,000 of them.
#[test]
fn any_text_into_any_buffer() {
    let seen = rounds::run(10_000_000, 160, |_, random, seen| {
        for _ in 0..1_000 {
            let numbers = generate_rules::numbers(random);
            let text = rule(random, &numbers);
            let (components, minutes) = (random.between(1, MOST_COMPONENTS), random.between(1, MOST_MINUTES));
            let needed = rule_text::compile(&text, numbers.propositions, components, minutes, MOST_BYTES);
            let length = room(random, needed.map_or(0, |policy| policy.len()));
            let answer = compile_rule(&text, numbers.propositions, components, minutes, &mut filled(random, length));
            match parsed(&text, numbers.propositions).verdict() {
                Err(refusal) => assert_eq!(answer, Err(refusal), "{text:?}"),
                Ok(()) => assert!(answer.is_ok() || answer == refused(SHORT_BUFFER, 0), "{text:?}: {answer:?}"),
            }
            seen.writing("rule", answer);
        }
    });
    for what in ["written", "refused 11", "refused 13", "refused 14"] {
        seen.at_least(8_000, &format!("rule {what}"));
    }
}

/// Into a shorter one nothing is written, with 11, and the same policy into every other; what is no rule is refused for it
/// at every length.
#[test]
fn buffers_of_every_length() {
    let seen = rounds::run(10_100_000, 60, |_, random, seen| {
        for _ in 0..30 {
            let numbers = Numbers { stray: random.pick(&[0, 0, 20]), ..generate_rules::numbers(random) };
            let text = grammatical(random, &numbers).into_bytes();
            let (components, minutes) = (random.between(1, MOST_COMPONENTS), random.between(1, MOST_MINUTES));
            let compile = |out: &mut [u8]| compile_rule(&text, numbers.propositions, components, minutes, out);
            let mut longest = filled(random, MOST_BYTES + 3);
            let answer = compile(&mut longest);
            for length in 0..=answer.map_or(20, |length| length + 3) {
                let mut out = filled(random, length);
                let written = compile(&mut out);
                seen.writing("rule", written);
                match answer {
                    Ok(needed) if length < needed => assert_eq!(written, refused(SHORT_BUFFER, 0)),
                    Ok(needed) => assert_eq!((written, &out[..needed]), (answer, &longest[..needed])),
                    Err(_) => assert_eq!(written, answer),
                }
            }
        }
    });
    for what in ["written", "refused 11", "refused 14"] {
        seen.at_least(3_000, &format!("rule {what}"));
    }
}

/// Zero, past the end, and numbers that would be 1 if they were cut to one, two or four bytes.
fn past(most: usize) -> [usize; 7] {
    [0, most + 1, 257, 65537, (1 << 32) + 1, usize::MAX - 1, usize::MAX]
}

/// One, two or three of them, whatever the text and the buffer.
#[test]
fn sizes_are_checked_first() {
    let most = [MOST_PROPOSITIONS, MOST_COMPONENTS, MOST_MINUTES];
    let seen = rounds::run(10_200_000, 20, |_, random, seen| {
        for _ in 0..500 {
            let numbers = generate_rules::numbers(random);
            let text = rule(random, &numbers);
            let mut sizes = most.map(|most| random.between(1, most));
            for _ in 0..random.between(1, 3) {
                let one = random.below(3);
                sizes[one] = random.pick(&past(most[one]));
            }
            let right = sizes.iter().zip(most).all(|(size, most)| (1..=most).contains(size));
            let length = room(random, 20);
            let [propositions, components, minutes] = sizes;
            let answer = compile_rule(&text, propositions, components, minutes, &mut filled(random, length));
            assert!(right || answer == refused(BAD_HEADING, 0), "{sizes:?}: {answer:?}");
            seen.writing("rule", answer);
        }
    });
    seen.at_least(8_000, "rule refused 2");
}

/// Every size at both ends of its range, with a text that is a rule of all of them.
#[test]
fn sizes_at_the_ends_of_their_ranges() {
    for (propositions, components, minutes) in
        [(1, 1, 1), (32, 1, 1), (1, 16, 1), (1, 1, 1024), (1, 1, 255), (1, 1, 256), (32, 16, 1024)]
    {
        let mut out = [0x5A; 8];
        assert_eq!(compile_rule(b"m0", propositions, components, minutes, &mut out), Ok(7));
        let minutes = (minutes as u16).to_le_bytes();
        assert_eq!(out, [propositions as u8, components as u8, minutes[0], minutes[1], 1, 0x21, 1, 0x5A]);
        for bad in past(32).into_iter().filter(|bad| *bad != propositions) {
            assert_eq!(compile_rule(b"m0", bad, components, 1, &mut out), refused(BAD_HEADING, 0));
        }
    }
}

/// Marks and bounds at and about every number of one, two, three and four digits that a range may end at.
#[test]
fn numbers_about_the_ends_of_their_ranges() {
    let mut out = [0; MOST_BYTES];
    for propositions in 1..=MOST_PROPOSITIONS {
        for number in (0..=40).chain(90..=110).chain(310..=330) {
            let answer = compile_rule(format!("m{number}").as_bytes(), propositions, 1, 1, &mut out);
            let taken = number < propositions;
            assert_eq!(answer.err(), if taken { None } else { refused(RULE_LIMIT, 1).err() });
        }
    }
    for lower in (0..=12).chain(98..=102).chain(1018..=1030).chain(9_998..=10_010) {
        for upper in (0..=12).chain(98..=102).chain(1018..=1030).chain(9_998..=10_010) {
            let text = format!("(m0 until[{lower},{upper}] true)");
            let place = match (lower > upper, lower > 1023, upper > 1023) {
                (true, ..) => Some(9),
                (_, true, _) => Some(10),
                (_, _, true) => Some(10 + format!("{lower},").len()),
                _ => None,
            };
            let answer = compile_rule(text.as_bytes(), 1, 1, 1, &mut out);
            assert_eq!(answer.err(), place.map(|place| Refusal { number: RULE_LIMIT, place }), "{text}");
        }
    }
}

/// Numbers that would be in their range if they were cut to so many bits.
#[test]
fn numbers_are_not_cut() {
    let mut out = [0; MOST_BYTES];
    let mut place = |text: String| compile_rule(text.as_bytes(), 4, 1, 1, &mut out).map_err(|refusal| refusal.place);
    for bits in 6..=120 {
        for number in (0..4).map(|within| (1u128 << bits) + within) {
            assert_eq!(place(format!("m{number}")), Err(1));
            if bits >= 10 {
                assert_eq!(place(format!("(m1 since[0,{number}] m1)")), Err(12));
                assert_eq!(place(format!("(m1 since[{number},{number}] m1)")), Err(10));
                assert_eq!(place(format!("(m1 since[{number},5] m1)")), Err(9));
                assert_eq!(place(format!("(m1 since[{number},5")), Err(10));
            }
        }
    }
}

/// Every text of 64 terms or more cut at each place, right before bytes with which it goes on, and with every byte
/// replaced by every other one.
#[test]
fn every_byte_of_long_texts() {
    let seen = rounds::run(10_300_000, 12, |number, random, seen| {
        let numbers = Numbers { stray: random.pick(&[0, 0, 40]), ..generate_rules::numbers(random) };
        let text = match number % 3 {
            0 => nested(random, 31 + number / 3 % 3, &numbers),
            1 => generate_rules::term(random, 64, 20, &numbers),
            _ => generate_rules::term(random, 66, 40, &numbers),
        };
        let text = text.into_bytes();
        let mut out = filled(random, MOST_BYTES);
        for place in 0..=text.len() {
            seen.writing("cut", compile_rule(&text[..place], numbers.propositions, 1, 1, &mut out));
        }
        for place in 0..text.len() {
            let mut other = text.clone();
            for byte in 0..=255 {
                other[place] = byte;
                seen.writing("changed", compile_rule(&other, numbers.propositions, 1, 1, &mut out));
            }
        }
    });
    seen.at_least(500, "cut refused 13");
    seen.at_least(200, "cut refused 14");
    seen.at_least(50_000, "changed refused 13");
    seen.at_least(10_000, "changed refused 14");
    seen.at_least(1_000, "changed written");
}

/// Long runs of brackets, of "not" and of digits.
#[test]
fn very_long_texts() {
    let mut out = [0x5A; 20];
    let mut answer = |text: &str| compile_rule(text.as_bytes(), 4, 1, 1, &mut out);
    let digits = "1".repeat(200_000);
    assert_eq!(answer(&"(".repeat(200_000)), refused(RULE_LIMIT, 32));
    assert_eq!(answer(&"not ".repeat(200_000)), refused(RULE_LIMIT, 256));
    assert_eq!(answer(&format!("m{digits}")), refused(RULE_LIMIT, 1));
    assert_eq!(answer(&format!("(m1 since[{digits},{digits}] m1)")), refused(RULE_LIMIT, 10));
    assert_eq!(answer(&format!("(m1 since[{digits},{digits}0] m1)")), refused(RULE_LIMIT, 10));
    assert_eq!(answer(&format!("(m1 since[{digits},{}0] m1)", &digits[1..])), refused(RULE_LIMIT, 9));
    assert_eq!(answer(&format!("(m1 since[{digits},3] m1)")), refused(RULE_LIMIT, 9));
    assert_eq!(answer(&format!("(m1 since[3,{digits}")), refused(RULE_LIMIT, 12));
    assert_eq!(answer(&format!("m1{}", " ".repeat(200_000))), refused(RULE_SYNTAX, 2));
}

/// The policy of the text, with these sizes.
fn written(text: &str, propositions: usize, components: usize, minutes: usize) -> (Vec<u8>, Policy) {
    let mut out = [0; MOST_BYTES];
    let length = compile_rule(text.as_bytes(), propositions, components, minutes, &mut out).unwrap();
    let bytes = out[..length].to_vec();
    let policy = policy::read(&bytes).unwrap();
    (bytes, policy)
}

/// After an opening and each message, random ones and then all of a trace, the rule's run of the work sheet and the verdict
/// sheet are those of the term, read with no line in between; and each verdict that stands is the trace's.
#[test]
fn the_sheet_is_the_terms() {
    let seen = rounds::run(10_400_000, 40, |_, random, seen| {
        for _ in 0..50 {
            let numbers = Numbers { propositions: random.between(1, 4), bound: random.below(9), stray: 0 };
            let (terms, depth) = (random.between(1, 16), random.below(8));
            let text = generate_rules::term(random, terms, depth, &numbers);
            let (components, minutes) = (random.between(1, 3), random.between(1, 12));
            let (bytes, policy) = written(&text, numbers.propositions, components, minutes);
            let expression = rule_text::read(text.as_bytes(), numbers.propositions).unwrap().expression();
            let same = |buffers: &Buffers| {
                let (row, verdicts) = expression_sheets(&policy, &expression, buffers);
                let work = &buffers.valuation[buffers.valuation.len() - minutes..];
                assert!(work == row && buffers.verdicts == verdicts, "{text}\n{buffers:?}\n{row:?}\n{verdicts:?}");
            };
            let mut buffers = inputs::filled_buffers(random, &policy);
            assert_eq!(open(&bytes, &mut buffers), Answer::Done);
            same(&buffers);
            let trace = inputs::trace(random, &policy, 6);
            for offer in generate::offers(random, &policy, &trace, 8) {
                seen.answer("receive", receive(&bytes, &offer, &mut buffers));
                same(&buffers);
            }
            assert_eq!(open(&bytes, &mut buffers), Answer::Done);
            let truths = expression_in(&expression, &trace);
            for message in generate::every_message(&policy, &trace) {
                let answer = receive(&bytes, &generate::encode_message(&message), &mut buffers);
                assert!(matches!(answer, Answer::Received(_)), "{answer:?}");
                same(&buffers);
            }
            for (minute, code) in buffers.verdicts.iter().enumerate().filter(|(_, code)| **code != 0) {
                let truth = if truths[minute] { 1 } else { 2 };
                assert!(*code == truth && trace.time_point(minute as i64), "{text}: minute {minute} {trace:?}");
            }
            seen.kinds(&policy);
            seen.verdicts(&buffers.verdicts);
        }
    });
    seen.at_least(5_000, "receive accepted");
    for what in ["kept", "broken"] {
        seen.at_least(1_000, what);
    }
    for kind in 0..=6 {
        seen.at_least(500, &format!("kind {kind}"));
    }
}

/// The small shift, with its rule typed: the card of document 01.
#[test]
fn the_small_shift_typed() {
    let card = [0x01, 0x01, 0x04, 0x00, 0x03, 0x00, 0x01, 0x01, 0x35, 0x04, 0x01, 0x02, 0x00];
    assert_eq!(written("(true since[0,2] m0)", 1, 1, 4).0, card);
    let until = [&card[..8], &[0x35, 0x05, 0x01, 0x01, 0x00]].concat();
    assert_eq!(written("(true until[0,1] m0)", 1, 1, 4).0, until);
}
