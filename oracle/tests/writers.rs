//! The two writers: the small shift from its fields, each refusal and their order, buffers of every length, and random
//! fields, which are written exactly if the reader takes their bytes and are then read again.

use oracle::encoding::{little_endian_bytes, write_fields};
use oracle::generate::{self, Random, LARGEST, MEDIUM, SMALL, TINY};
use oracle::message::{self, ALIVE_BIT};
use oracle::policy::{self, MOST_BYTES, RULE_BIT};
use oracle::refusal::*;
use oracle::write::{message_text, policy_text, Line, MessageFields, PolicyFields};
use oracle::{encode_message, encode_policy, Policy, Refusal};

/// Mark 0 at some time in the last 2 minutes.
const K: &[u8] = &[0x01, 0x01, 0x04, 0x00, 0x03, 0x00, 0x01, 0x01, 0x35, 0x04, 0x01, 0x02, 0x00];

const TRUE: Line = Line { kind: 0, first: 0, second: 0, lower: 0, upper: 0, rule: false };
const RULE: Line = Line { rule: true, ..TRUE };

/// A line that is no rule.
fn line(kind: u16, first: u16, second: u16, lower: u16, upper: u16) -> Line {
    Line { kind, first, second, lower, upper, rule: false }
}

fn small_policy() -> PolicyFields {
    let since = Line { rule: true, ..line(4, 0, 1, 0, 2) };
    PolicyFields { propositions: 1, components: 1, minutes: 4, lines: vec![TRUE, line(1, 0, 0, 0, 0), since] }
}

/// Two propositions, two components, three minutes and these lines.
fn with_lines(lines: &[Line]) -> PolicyFields {
    PolicyFields { propositions: 2, components: 2, minutes: 3, lines: lines.to_vec() }
}

fn observation(component: usize, minute: usize, number: usize, named: u32, values: u32) -> MessageFields {
    MessageFields { component, alive: false, minute, number, named, values }
}

fn alive(component: usize, minute: usize, number: usize) -> MessageFields {
    MessageFields { component, alive: true, minute, number, named: 0, values: 0 }
}

fn refused<T>(number: u8) -> Result<T, Refusal> {
    Err(Refusal { number, place: 0 })
}

#[test]
fn the_small_shift_is_written_from_its_fields() {
    assert_eq!(policy_text(&small_policy()).unwrap(), K);
    let mut until = small_policy();
    until.lines[2] = Line { kind: 5, upper: 1, ..until.lines[2] };
    assert_eq!(policy_text(&until).unwrap(), [&K[..8], &[0x35, 0x05, 0x01, 0x01, 0x00]].concat());
    let text = |fields| message_text(&policy::read(K).unwrap(), &fields).unwrap();
    assert_eq!(text(observation(0, 0, 1, 1, 0)), [0x0C, 0x01, 0x00, 0x01, 0x00, 0x00, 0x00, 0x00]);
    assert_eq!(text(observation(0, 2, 2, 1, 1)), [0x0E, 0x02, 0x00, 0x02, 0x00, 0x01, 0x00, 0x00, 0x00, 0x01]);
    assert_eq!(text(observation(0, 3, 3, 0, 0)), [0x06, 0x03, 0x00, 0x03, 0x00]);
    assert_eq!(text(alive(0, 0, 0)), [0x10]);
    assert_eq!(text(alive(0, 4, 2)), [0x16, 0x04, 0x00, 0x02, 0x00]);
}

#[test]
fn a_policy_with_every_kind_and_every_field() {
    let mut lines = [
        line(0, 0, 0, 0, 0),
        line(1, 1, 0, 0, 0),
        line(2, 0, 0, 0, 0),
        line(3, 1, 0, 0, 0),
        line(4, 1, 2, 258, 1023),
        line(5, 0, 0, 0, 0),
        line(1, 0, 0, 0, 0),
        line(6, 1, 6, 0, 0),
        line(7, 0, 7, 0, 0),
        line(8, 8, 0, 258, 1023),
        line(9, 0, 0, 0, 0),
        line(10, 10, 0, 1, 1),
        line(11, 2, 0, 0, 770),
    ];
    [1, 3, 4, 7, 9, 12].into_iter().for_each(|number: usize| lines[number].rule = true);
    let older = [
        2, 2, 3, 0, 13, 0x00, 0x23, 1, 1, 0x01, 2, 0x23, 3, 1, 0x3F, 4, 1, 2, 0x02, 0x01, 0xFF, 0x03, 0x01, 5, 0x01, 1,
    ];
    let newer: [&[u8]; 6] = [
        &[0x27, 6, 1, 6],
        &[0x05, 7, 7],
        &[0x3B, 8, 8, 0x02, 0x01, 0xFF, 0x03],
        &[0x01, 9],
        &[0x1B, 10, 10, 1, 0, 1, 0],
        &[0x33, 11, 2, 0x02, 0x03],
    ];
    assert_eq!(policy_text(&with_lines(&lines)).unwrap(), [&older[..], &newer.concat()].concat());
}

#[test]
fn values_are_packed_lowest_first() {
    let policy = policy::read(&[32, 1, 1, 0, 1, 0x20]).unwrap();
    let text = |named, values| message_text(&policy, &observation(0, 0, 1, named, values)).unwrap();
    assert_eq!(text(0x1FF0, 0x1810), [0x0C, 1, 0, 0xF0, 0x1F, 0, 0, 0x81, 1]);
    assert_eq!(text(u32::MAX, 0x8004_0201), [0x0C, 1, 0, 0xFF, 0xFF, 0xFF, 0xFF, 1, 2, 4, 0x80]);
    assert_eq!(text(1 << 31, 1 << 31), [0x0C, 1, 0, 0, 0, 0, 0x80, 1]);
    assert_eq!(text(1 << 31, 0), [0x0C, 1, 0, 0, 0, 0, 0x80, 0]);
}

#[test]
fn a_heading_number_out_of_range_is_2() {
    let good = with_lines(&[RULE]);
    for value in [0, 33, 257, 258, usize::MAX] {
        assert_eq!(policy_text(&PolicyFields { propositions: value, ..good.clone() }), refused(BAD_HEADING));
    }
    for value in [0, 17, 257, 258, usize::MAX] {
        assert_eq!(policy_text(&PolicyFields { components: value, ..good.clone() }), refused(BAD_HEADING));
    }
    for value in [0, 1025, 65537, usize::MAX] {
        assert_eq!(policy_text(&PolicyFields { minutes: value, ..good.clone() }), refused(BAD_HEADING));
    }
    for count in [0, 65, 257] {
        let mut lines = vec![TRUE; count];
        lines.iter_mut().take(1).for_each(|line| line.rule = true);
        assert_eq!(policy_text(&with_lines(&lines)), refused(BAD_HEADING));
    }
    let most = PolicyFields { propositions: 32, components: 16, minutes: 1024, lines: vec![TRUE; 63] };
    let most = PolicyFields { lines: [most.lines, vec![RULE]].concat(), ..most };
    assert_eq!(policy_text(&most).unwrap()[..5], [32, 16, 0x00, 0x04, 64]);
}

#[test]
fn a_bad_line_is_3() {
    let bad = [
        line(12, 0, 0, 0, 0),      // no such kind
        line(13, 0, 0, 0, 0),      // no such kind
        line(255, 0, 0, 0, 0),     // no such kind
        line(256, 0, 0, 0, 0),     // no such kind, though its low byte is one
        line(262, 0, 0, 0, 0),     // no such kind, though its low byte is one
        line(65535, 0, 0, 0, 0),   // no such kind
        line(0, 1, 0, 0, 0),       // true allows no field
        line(0, 0, 1, 0, 0),       // true allows no field
        line(0, 0, 0, 1, 1),       // true allows no field
        line(0, 0, 0, 0, 1),       // true allows no field
        line(1, 2, 0, 0, 0),       // no such proposition
        line(1, 256, 0, 0, 0),     // no such proposition, though its low byte is one
        line(1, 0, 1, 0, 0),       // a proposition allows no second
        line(1, 0, 0, 0, 1),       // a proposition allows no upper
        line(2, 2, 0, 0, 0),       // not: the line itself
        line(2, 3, 0, 0, 0),       // not: a later line
        line(2, 256, 0, 0, 0),     // not: no line, though its low byte is an earlier one
        line(2, 0, 1, 0, 0),       // not allows no second
        line(2, 0, 0, 1, 1),       // not allows no lower
        line(3, 2, 0, 0, 0),       // or: the line itself first
        line(3, 0, 2, 0, 0),       // or: the line itself second
        line(3, 0, 0, 0, 1),       // or allows no upper
        line(4, 2, 0, 0, 1),       // since: the line itself first
        line(4, 0, 2, 0, 1),       // since: the line itself second
        line(4, 0, 0, 1, 0),       // lower above upper
        line(5, 0, 0, 2, 1),       // lower above upper
        line(5, 0, 0, 0, 1024),    // upper 1,024
        line(5, 0, 0, 1024, 1024), // both 1,024
        line(5, 0, 0, 0, 65535),   // upper far too high
        line(6, 2, 0, 0, 0),       // and: the line itself first
        line(6, 0, 2, 0, 0),       // and: the line itself second
        line(6, 256, 0, 0, 0),     // and: no line, though its low byte is an earlier one
        line(6, 0, 0, 0, 1),       // and allows no upper
        line(6, 0, 0, 1, 1),       // and allows no lower
        line(7, 2, 0, 0, 0),       // implies: the line itself first
        line(7, 0, 3, 0, 0),       // implies: a later line second
        line(7, 0, 0, 0, 1),       // implies allows no upper
        line(8, 2, 0, 0, 1),       // once: the line itself
        line(8, 0, 1, 0, 1),       // once allows no second
        line(8, 0, 256, 0, 1),     // once allows no second, though its low byte is 0
        line(8, 0, 0, 1, 0),       // lower above upper
        line(9, 3, 0, 0, 1),       // historically: a later line
        line(9, 1, 1, 1, 1),       // historically allows no second
        line(9, 0, 0, 1024, 1024), // both 1,024
        line(10, 256, 0, 0, 1),    // eventually: no line, though its low byte is an earlier one
        line(10, 0, 1, 0, 0),      // eventually allows no second
        line(10, 0, 0, 0, 1024),   // upper 1,024
        line(11, 2, 0, 0, 0),      // always: the line itself
        line(11, 1, 1, 1, 1),      // always allows no second
        line(11, 0, 0, 1023, 9),   // lower above upper
        line(11, 0, 0, 0, 65535),  // upper far too high
    ];
    for line in bad {
        assert_eq!(policy_text(&with_lines(&[TRUE, RULE, line])), refused(BAD_SUBFORMULA), "{line:?}");
    }
    for kind in 2..=11 {
        assert_eq!(policy_text(&with_lines(&[Line { kind, ..RULE }])), refused(BAD_SUBFORMULA));
    }
    let good = [
        line(1, 1, 0, 0, 0),
        line(2, 1, 0, 0, 0),
        line(3, 1, 1, 0, 0),
        line(4, 1, 1, 1023, 1023),
        line(5, 0, 0, 0, 0),
        line(6, 1, 1, 0, 0),
        line(7, 1, 1, 0, 0),
        line(8, 1, 0, 1023, 1023),
        line(9, 1, 0, 0, 1023),
        line(10, 0, 0, 0, 0),
        line(11, 1, 0, 1, 1),
    ];
    for line in good {
        assert!(policy_text(&with_lines(&[TRUE, RULE, line])).is_ok(), "{line:?}");
    }
}

/// Which of first, second, lower and upper each kind allows.
const ALLOWED: [[bool; 4]; 12] = [
    [false, false, false, false],
    [true, false, false, false],
    [true, false, false, false],
    [true, true, false, false],
    [true, true, true, true],
    [true, true, true, true],
    [true, true, false, false],
    [true, true, false, false],
    [true, false, true, true],
    [true, false, true, true],
    [true, false, true, true],
    [true, false, true, true],
];

/// Each kind with every choice of fields that are 1, the others 0, after two lines.
#[test]
fn each_kind_with_every_choice_of_fields() {
    for kind in 0..=300 {
        for choice in 0..16 {
            let [first, second, lower, upper] = [0, 1, 2, 3].map(|field| choice >> field & 1);
            let fields = [first, second, lower, upper];
            let allowed = ALLOWED.get(usize::from(kind));
            let right = allowed.is_some_and(|allowed| (0..4).all(|field| allowed[field] || fields[field] == 0));
            let text = policy_text(&with_lines(&[TRUE, RULE, line(kind, first, second, lower, upper)]));
            assert_eq!(text.is_ok(), right && lower <= upper, "{kind} {fields:?}");
            assert!(text.is_ok() || text == refused(BAD_SUBFORMULA), "{kind} {fields:?}");
        }
    }
}

#[test]
fn no_rule_or_nine_is_4() {
    assert_eq!(policy_text(&with_lines(&[TRUE; 64])), refused(RULE_COUNT));
    assert_eq!(policy_text(&with_lines(&[RULE; 9])), refused(RULE_COUNT));
    assert!(policy_text(&with_lines(&[RULE; 8])).is_ok());
}

/// Every reason is there at once, and then one after the other is mended.
#[test]
fn a_policy_is_refused_with_2_then_3_then_4_then_11() {
    let write = |fields: &PolicyFields, length: usize| encode_policy(fields, &mut vec![0; length]);
    let mut fields = PolicyFields { minutes: 0, ..with_lines(&[TRUE, TRUE, line(12, 0, 0, 0, 0)]) };
    assert_eq!(write(&fields, 0), refused(BAD_HEADING));
    fields.minutes = 3;
    assert_eq!(write(&fields, 0), refused(BAD_SUBFORMULA));
    fields.lines[2] = TRUE;
    assert_eq!(write(&fields, 0), refused(RULE_COUNT));
    fields.lines[2] = RULE;
    assert_eq!(write(&fields, 0), refused(SHORT_BUFFER));
    assert_eq!(write(&fields, 8), Ok(8));
    // A bad line after nine rules is still told first, and so is a heading whose lines are bad.
    assert_eq!(write(&with_lines(&[&[RULE; 9][..], &[line(0, 1, 0, 0, 0)]].concat()), 99), refused(BAD_SUBFORMULA));
    assert_eq!(write(&with_lines(&[line(12, 0, 0, 0, 0); 65]), 99), refused(BAD_HEADING));
}

/// Two propositions, two components, three minutes.
fn sizes() -> Vec<u8> {
    policy_text(&with_lines(&[RULE])).unwrap()
}

#[test]
fn a_bad_message_is_8() {
    let bad = [
        MessageFields::default(),             // an observation's number 0
        observation(2, 0, 1, 0, 0),           // no such component
        observation(256, 0, 1, 0, 0),         // no such component, though its low byte is one
        observation(usize::MAX, 0, 1, 0, 0),  // no such component
        observation(0, 3, 1, 0, 0),           // an observation at minute M
        observation(0, 65536, 1, 0, 0),       // far past it, though its low bytes are 0
        observation(0, usize::MAX, 1, 0, 0),  // far past it
        observation(0, 0, 65536, 0, 0),       // a number of three bytes
        observation(0, 0, 65537, 0, 0),       // a number of three bytes
        observation(0, 0, usize::MAX, 0, 0),  // a number of eight bytes
        observation(0, 0, 1, 4, 0),           // no such proposition
        observation(0, 0, 1, 0x8000_0003, 0), // no such proposition
        observation(0, 0, 1, 0, 1),           // a value of what is not named
        observation(0, 0, 1, 1, 2),           // a value of what is not named
        observation(0, 0, 1, 3, 4),           // a value of what is not named, and no such proposition
        alive(2, 0, 0),                       // no such component
        alive(256, 0, 0),                     // no such component
        alive(0, 4, 0),                       // past minute M
        alive(0, 65536, 0),                   // past minute M
        alive(0, 0, 65536),                   // a number of three bytes
        MessageFields { named: 1, ..alive(0, 0, 0) },
        MessageFields { values: 1, ..alive(0, 0, 0) },
        MessageFields { named: 1, values: 1, ..alive(0, 0, 0) },
    ];
    for fields in bad {
        assert_eq!(encode_message(&sizes(), &fields, &mut [0; 14]), refused(BAD_MESSAGE), "{fields:?}");
        // Before 11.
        assert_eq!(encode_message(&sizes(), &fields, &mut []), refused(BAD_MESSAGE), "{fields:?}");
    }
    let good = [observation(1, 2, 65535, 3, 3), observation(0, 0, 1, 2, 0), alive(1, 3, 65535), alive(0, 0, 0)];
    for fields in good {
        assert!(encode_message(&sizes(), &fields, &mut [0; 14]).is_ok(), "{fields:?}");
        assert_eq!(encode_message(&sizes(), &fields, &mut []), refused(SHORT_BUFFER), "{fields:?}");
    }
}

/// With the reader's numbers and places, before 8 and 11.
#[test]
fn a_message_has_its_policy_checked_first() {
    let write = |policy: &[u8]| encode_message(policy, &observation(9, 9, 0, 9, 9), &mut []);
    let refused = |number, place| Err(Refusal { number, place });
    assert_eq!(write(&[]), refused(TRUNCATED_POLICY, 0));
    assert_eq!(write(&K[..12]), refused(TRUNCATED_POLICY, 12));
    assert_eq!(write(&[K, &[0, 0]].concat()), refused(TRUNCATED_POLICY, 13));
    assert_eq!(write(&[2, 17, 3, 0, 1, 0x20]), refused(BAD_HEADING, 1));
    assert_eq!(write(&[2, 2, 3, 0, 2, 0x20, 0x40]), refused(BAD_SUBFORMULA, 6));
    assert_eq!(write(&[2, 2, 3, 0, 1, 0x00]), refused(RULE_COUNT, 0));
    assert_eq!(write(K), refused(BAD_MESSAGE, 0));
}

/// A buffer of every length up to past the text's: shorter ones are not written, longer ones keep their rest.
fn at_every_length(text: &[u8], write: impl Fn(&mut [u8]) -> Result<usize, Refusal>) {
    for length in 0..=text.len() + 3 {
        let before = vec![0x5A; length];
        let mut out = before.clone();
        let answer = write(&mut out);
        if length < text.len() {
            assert_eq!((answer, out), (refused(SHORT_BUFFER), before));
        } else {
            assert_eq!((answer, out), (Ok(text.len()), [text, &before[text.len()..]].concat()));
        }
    }
}

#[test]
fn a_short_buffer_is_11_and_a_longer_one_keeps_its_rest() {
    at_every_length(K, |out| encode_policy(&small_policy(), out));
    at_every_length(&[0x10], |out| encode_message(K, &alive(0, 0, 0), out));
    let observed = [0x0E, 0x02, 0x00, 0x02, 0x00, 0x01, 0x00, 0x00, 0x00, 0x01];
    at_every_length(&observed, |out| encode_message(K, &observation(0, 2, 2, 1, 1), out));
}

#[test]
fn a_refusal_writes_nothing() {
    let mut out = [0x5A; 600];
    assert_eq!(encode_policy(&with_lines(&[]), &mut out), refused(BAD_HEADING));
    assert_eq!(encode_policy(&with_lines(&[RULE, line(12, 0, 0, 0, 0)]), &mut out), refused(BAD_SUBFORMULA));
    assert_eq!(encode_policy(&with_lines(&[TRUE]), &mut out), refused(RULE_COUNT));
    assert_eq!(encode_message(&sizes(), &observation(0, 0, 0, 0, 0), &mut out), refused(BAD_MESSAGE));
    assert_eq!(out, [0x5A; 600]);
}

/// Operands that are 0 are not written, so that the first two lines can't have all fields.
#[test]
fn the_longest_policy_and_the_longest_message() {
    let mut lines = vec![line(5, 1, 1, 1023, 1023); 64];
    lines[0] = line(1, 31, 0, 0, 0);
    lines[1] = line(4, 0, 0, 1, 1023);
    lines[63].rule = true;
    let fields = PolicyFields { propositions: 32, components: 16, minutes: 1024, lines };
    let policy = policy_text(&fields).unwrap();
    assert_eq!(policy.len(), MOST_BYTES - 7);
    let fields = observation(15, 1023, 65535, u32::MAX, u32::MAX);
    assert_eq!(message_text(&policy::read(&policy).unwrap(), &fields).unwrap().len(), 14);
}

#[test]
fn writing_an_accepted_policy_or_message_gives_its_own_bytes() {
    let mut random = Random::new(31);
    let mut strays = [0; 2];
    for limits in [TINY, SMALL, MEDIUM, LARGEST] {
        for _ in 0..200 {
            let policy = generate::policy(&mut random, &limits);
            let bytes = generate::encode_policy(&policy);
            assert_eq!(policy_text(&PolicyFields::from(&policy)), Ok(bytes));
            let stray = generate::stray_policy(&mut random, &policy);
            if let Ok(policy) = policy::read(&stray) {
                assert_eq!(policy_text(&PolicyFields::from(&policy)), Ok(stray));
                strays[0] += 1;
            }
            let trace = generate::trace(&mut random, &policy, 1);
            for bytes in generate::offers(&mut random, &policy, &trace, 12) {
                if let Ok(message) = message::read(&policy, &bytes) {
                    assert_eq!(message_text(&policy, &MessageFields::from(&message)), Ok(bytes));
                    strays[1] += 1;
                }
            }
        }
    }
    assert!(strays[0] > 100 && strays[1] > 1_000, "{strays:?}");
}

/// The bytes of a policy's fields whether or not they are in range, or None if a number has no room.
fn unchecked_policy(fields: &PolicyFields) -> Option<Vec<u8>> {
    let PolicyFields { propositions, components, minutes, lines } = fields;
    let heading = [(*propositions, 1), (*components, 1), (*minutes, 2), (lines.len(), 1)];
    let line_fields = |line: &Line| [line.kind, line.first, line.second, line.lower, line.upper].map(usize::from);
    let fits = heading.into_iter().all(|(number, size)| number < 256usize.pow(size))
        && lines.iter().all(|line| line_fields(line)[..3].iter().all(|field| *field < 256));
    let heading = heading.into_iter().flat_map(|(number, size)| little_endian_bytes(number, size as usize));
    let text = |line: &Line| write_fields(u8::from(line.rule) << RULE_BIT, &line_fields(line), &policy::FIELD_SIZES);
    fits.then(|| heading.chain(lines.iter().flat_map(text)).collect())
}

/// The same of a message, or None also if there is a value where nothing is named.
fn unchecked_message(fields: &MessageFields) -> Option<Vec<u8>> {
    let MessageFields { component, alive, minute, number, named, values } = *fields;
    let fits = component < 256 && minute < 65536 && number < 65536 && values & !named == 0;
    let map = u8::from(alive) << ALIVE_BIT;
    let all: Vec<u32> = (0..32).filter(|proposition| named >> proposition & 1 == 1).collect();
    let mut packed = vec![0; all.len().div_ceil(8)];
    for (j, proposition) in all.into_iter().enumerate() {
        packed[j / 8] |= ((values >> proposition & 1) as u8) << (j % 8);
    }
    let text = || write_fields(map, &[component, minute, number, named as usize], &message::FIELD_SIZES);
    fits.then(|| [text(), packed].concat())
}

/// The reader's number for what it refuses.
fn number<T>(read: &Result<T, Refusal>) -> u8 {
    read.as_ref().err().map_or(0, |refusal| refusal.number)
}

#[test]
fn fields_are_written_exactly_if_the_reader_takes_their_bytes_and_are_read_again() {
    let mut random = Random::new(32);
    let mut seen = [0; 12];
    for limits in [TINY, SMALL, MEDIUM, LARGEST] {
        for _ in 0..2_000 {
            let policy = generate::policy(&mut random, &limits);
            let fields = generate::stray_policy_fields(&mut random, &policy);
            seen[number(&policy_by_the_reader(&fields)) as usize] += 1;
            let fields = generate::stray_message_fields(&mut random, &policy);
            seen[number(&message_by_the_reader(&policy, &fields)) as usize] += 1;
        }
    }
    assert!([0, 2, 3, 4, 8].into_iter().all(|number: usize| seen[number] > 200), "{seen:?}");
}

fn policy_by_the_reader(fields: &PolicyFields) -> Result<Vec<u8>, Refusal> {
    let text = policy_text(fields);
    match unchecked_policy(fields) {
        None => assert!(text.is_err(), "{fields:?}"),
        Some(bytes) => {
            let read = policy::read(&bytes);
            assert_eq!(number(&text), number(&read), "{fields:?}");
            if let Ok(policy) = read {
                assert_eq!((&text, PolicyFields::from(&policy)), (&Ok(bytes), fields.clone()));
            }
        }
    }
    text
}

fn message_by_the_reader(policy: &Policy, fields: &MessageFields) -> Result<Vec<u8>, Refusal> {
    let text = message_text(policy, fields);
    match unchecked_message(fields) {
        None => assert_eq!(text, refused(BAD_MESSAGE), "{fields:?}"),
        Some(bytes) => {
            let read = message::read(policy, &bytes);
            assert_eq!(number(&text), number(&read), "{fields:?}");
            if let Ok(message) = read {
                assert_eq!((&text, MessageFields::from(&message)), (&Ok(bytes), *fields));
            }
        }
    }
    text
}
