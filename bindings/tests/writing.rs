//! Policies and messages written from their fields: as many lines as a slice has, into buffers that are too short, right and longer.

use zankezurt::{encode_message, encode_policy, kind, Line, Message, Reason, Refusal, MESSAGE_LENGTH, POLICY_LENGTH};

/// Mark 0 at some time in the last 2 minutes.
const POLICY: [u8; 13] = [0x01, 0x01, 0x04, 0x00, 0x03, 0x00, 0x01, 0x01, 0x35, 0x04, 0x01, 0x02, 0x00];

const TRUE: Line = Line { kind: kind::TRUE, first: 0, second: 0, lower: 0, upper: 0, rule: 0 };
const RULE: Line = Line { rule: 1, ..TRUE };
const LINES: [Line; 3] =
    [TRUE, Line { kind: kind::PROPOSITION, ..TRUE }, Line { kind: kind::SINCE, second: 1, upper: 2, ..RULE }];

/// What every buffer holds before a call.
const KEPT: u8 = 0x5A;

/// The buffer after a call, and what the call gave.
fn lent(length: usize, call: impl Fn(&mut [u8]) -> Result<usize, Refusal>) -> (Vec<u8>, Result<usize, Refusal>) {
    let mut out = vec![KEPT; length];
    let answer = call(&mut out);
    (out, answer)
}

/// What is written into a buffer that is long enough for everything.
fn text(call: impl Fn(&mut [u8]) -> Result<usize, Refusal>) -> Result<Vec<u8>, Refusal> {
    let (out, answer) = lent(POLICY_LENGTH, call);
    answer.map(|length| out[..length].to_vec())
}

fn message_text(message: Message) -> Result<Vec<u8>, Refusal> {
    text(|out| encode_message(&POLICY, message, out))
}

fn refused<T>(reason: Reason, place: usize) -> Result<T, Refusal> {
    Err(Refusal { reason, place })
}

/// As `struct zankezurt_line` of the header, and as the archive reads it.
#[test]
fn a_line_is_six_numbers_of_two_bytes() {
    assert_eq!((size_of::<Line>(), align_of::<Line>()), (12, 2));
}

#[test]
fn the_small_shift_is_written_from_its_fields() {
    assert_eq!(text(|out| encode_policy(1, 1, 4, &LINES, out)).unwrap(), POLICY);
    let none = Message::default();
    let first = Message { number: 1, named: 1, ..none };
    assert_eq!(message_text(first).unwrap(), [0x0C, 0x01, 0x00, 0x01, 0x00, 0x00, 0x00, 0x00]);
    let second = Message { minute: 2, number: 2, named: 1, values: 1, ..none };
    assert_eq!(message_text(second).unwrap(), [0x0E, 0x02, 0x00, 0x02, 0x00, 0x01, 0x00, 0x00, 0x00, 0x01]);
    let third = Message { minute: 3, number: 3, ..none };
    assert_eq!(message_text(third).unwrap(), [0x06, 0x03, 0x00, 0x03, 0x00]);
    assert_eq!(message_text(Message { alive: true, ..none }).unwrap(), [0x10]);
    assert_eq!(message_text(none), refused(Reason::BadMessage, 0));
}

/// More than 64 are refused for their number, whatever they are.
#[test]
fn every_number_of_lines_up_to_64_is_written() {
    let bad = Line { kind: kind::ALWAYS + 1, ..TRUE };
    for count in 0..=200 {
        let mut lines = vec![TRUE; count];
        lines.iter_mut().take(1).for_each(|line| *line = RULE);
        let written = text(|out| encode_policy(32, 16, 1024, &lines, out));
        if (1..=64).contains(&count) {
            let rest = vec![0x00; count - 1];
            assert_eq!(written.unwrap(), [&[32, 16, 0x00, 0x04, count as u8, 0x20], &rest[..]].concat());
            lines[count - 1] = bad;
            assert_eq!(text(|out| encode_policy(32, 16, 1024, &lines, out)), refused(Reason::BadSubformula, 0));
        } else {
            assert_eq!(written, refused(Reason::BadHeading, 0));
            lines.fill(bad);
            assert_eq!(text(|out| encode_policy(32, 16, 1024, &lines, out)), refused(Reason::BadHeading, 0));
        }
    }
}

#[test]
fn a_rule_is_any_number_but_0() {
    for rule in [1, 2, 255, 256, 65535] {
        assert_eq!(text(|out| encode_policy(1, 1, 1, &[Line { rule, ..TRUE }], out)).unwrap(), [1, 1, 1, 0, 1, 0x20]);
    }
    assert_eq!(text(|out| encode_policy(1, 1, 1, &[TRUE], out)), refused(Reason::RuleCount, 0));
}

/// A shorter one is refused and not written, a longer one keeps its rest.
#[test]
fn buffers_of_every_length() {
    for length in 0..30 {
        let policy = lent(length, |out| encode_policy(1, 1, 4, &LINES, out));
        assert_eq!(policy, expected(&POLICY, length));
        let message = Message { minute: 3, number: 3, ..Message::default() };
        let message = lent(length, |out| encode_message(&POLICY, message, out));
        assert_eq!(message, expected(&[0x06, 0x03, 0x00, 0x03, 0x00], length));
    }
}

fn expected(text: &[u8], length: usize) -> (Vec<u8>, Result<usize, Refusal>) {
    if length < text.len() {
        return (vec![KEPT; length], refused(Reason::ShortBuffer, 0));
    }
    ([text, &vec![KEPT; length - text.len()]].concat(), Ok(text.len()))
}

#[test]
fn a_message_has_its_policy_checked_first() {
    let write = |policy: &[u8]| encode_message(policy, Message::default(), &mut []);
    assert_eq!(write(&[]), refused(Reason::TruncatedPolicy, 0));
    assert_eq!(write(&POLICY[..12]), refused(Reason::TruncatedPolicy, 12));
    assert_eq!(write(&[1, 0, 4, 0, 1, 0x20]), refused(Reason::BadHeading, 1));
    assert_eq!(write(&[1, 1, 4, 0, 1, 0x40]), refused(Reason::BadSubformula, 5));
    assert_eq!(write(&[1, 1, 4, 0, 1, 0x00]), refused(Reason::RuleCount, 0));
    assert_eq!(write(&POLICY), refused(Reason::BadMessage, 0));
}

/// Numbers are not cut to the bytes that they have in the text.
#[test]
fn numbers_that_have_no_room_are_refused() {
    let good = Message { number: 65535, ..Message::default() };
    assert_eq!(message_text(good).unwrap(), [0x04, 0xFF, 0xFF]);
    for bad in [
        Message { number: 65536, ..good },
        Message { number: 65537, ..good },
        Message { component: 256, ..good },
        Message { minute: 65536, ..good },
    ] {
        assert_eq!(message_text(bad), refused(Reason::BadMessage, 0), "{bad:?}");
    }
    for (propositions, components, minutes) in [(257, 1, 1), (1, 257, 1), (1, 1, 65537)] {
        let policy = text(|out| encode_policy(propositions, components, minutes, &[RULE], out));
        assert_eq!(policy, refused(Reason::BadHeading, 0));
    }
}

#[test]
fn the_longest_message_is_as_long_as_its_constant() {
    let mut policy = [0; 6];
    assert_eq!(encode_policy(32, 16, 1024, &[RULE], &mut policy), Ok(6));
    let message =
        Message { component: 15, alive: false, minute: 1023, number: 65535, named: u32::MAX, values: u32::MAX };
    assert_eq!(encode_message(&policy, message, &mut [0; MESSAGE_LENGTH]), Ok(MESSAGE_LENGTH));
}

/// Operands that are 0 are not written, so that the first two lines have less than 8 bytes.
#[test]
fn the_longest_policy_is_not_longer_than_its_constant() {
    let mut lines = [Line { kind: kind::UNTIL, first: 1, second: 1, lower: 1023, upper: 1023, rule: 0 }; 64];
    lines[0] = Line { kind: kind::PROPOSITION, first: 31, ..RULE };
    lines[1] = Line { kind: kind::SINCE, lower: 1, upper: 1023, ..TRUE };
    assert_eq!(encode_policy(32, 16, 1024, &lines, &mut [0; POLICY_LENGTH]), Ok(POLICY_LENGTH - 7));
}
