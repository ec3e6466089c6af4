//! The reaches of rules: of lines of every kind, in the order of the rules, into buffers that are too short, right and longer; what is
//! refused; and that a shift which is known whole has its verdicts.

#[path = "common/lines.rs"]
mod lines;

use lines::{join, not, proposition, TRUE};
use zankezurt::{encode_policy, kind, rule_reaches, Line, Reason, Refusal, Sizes, POLICY_LENGTH};

/// What every buffer holds before a call.
const KEPT: u16 = 0x5AA5;

fn refused<T>(reason: Reason, place: usize) -> Result<T, Refusal> {
    Err(Refusal { reason, place })
}

fn rule(line: Line) -> Line {
    Line { rule: 1, ..line }
}

/// A since or an until.
fn temporal(kind: u16, first: u16, second: u16, [lower, upper]: [u16; 2]) -> Line {
    Line { lower, upper, ..join(kind, first, second) }
}

/// A once, a historically, an eventually or an always.
fn span(kind: u16, first: u16, [lower, upper]: [u16; 2]) -> Line {
    temporal(kind, first, 0, [lower, upper])
}

/// The policy of these lines, with 2 propositions, 1 component and 4 minutes.
fn written(lines: &[Line]) -> Vec<u8> {
    let mut out = [0; POLICY_LENGTH];
    let length = encode_policy(2, 1, 4, lines, &mut out).unwrap();
    out[..length].to_vec()
}

/// The reaches of the rules under a policy, into a buffer that keeps its rest.
fn reaches(policy: &[u8]) -> Vec<u16> {
    let mut out = [KEPT; Sizes::LARGEST.rules + 3];
    let rules = rule_reaches(policy, &mut out).unwrap();
    assert!(out[rules..].iter().all(|cell| *cell == KEPT), "{out:?}");
    out[..rules].to_vec()
}

/// The reach of every line: each is the one rule in turn.
fn line_reaches(lines: &[Line]) -> Vec<u16> {
    let reach = |number: usize| {
        let mut lines = lines.to_vec();
        lines[number].rule = 1;
        reaches(&written(&lines))[0]
    };
    (0..lines.len()).map(reach).collect()
}

#[test]
fn a_line_of_each_kind() {
    let lines = [
        TRUE,
        proposition(1),
        temporal(kind::UNTIL, 0, 1, [2, 5]),
        span(kind::EVENTUALLY, 1, [0, 3]),
        span(kind::ALWAYS, 0, [7, 7]),
        not(2),
        join(kind::OR, 2, 3),
        join(kind::AND, 3, 2),
        join(kind::IMPLIES, 1, 3),
        temporal(kind::SINCE, 3, 2, [1, 900]),
        span(kind::ONCE, 4, [0, 900]),
        span(kind::HISTORICALLY, 3, [900, 900]),
    ];
    assert_eq!(line_reaches(&lines), [0, 0, 5, 3, 7, 5, 5, 5, 3, 5, 7, 3]);
}

/// Upper is added to the larger of the two operands', whichever it is; what looks back adds nothing and takes nothing off.
#[test]
fn lines_over_lines_that_look_ahead() {
    let ahead = [proposition(0), span(kind::EVENTUALLY, 0, [0, 2]), span(kind::ALWAYS, 0, [3, 4])];
    for (line, reach) in [
        (temporal(kind::UNTIL, 1, 2, [10, 20]), 24),
        (temporal(kind::UNTIL, 2, 1, [10, 20]), 24),
        (temporal(kind::UNTIL, 1, 0, [0, 0]), 2),
        (span(kind::EVENTUALLY, 2, [0, 1023]), 1027),
        (span(kind::ALWAYS, 1, [1023, 1023]), 1025),
        (temporal(kind::SINCE, 1, 2, [10, 20]), 4),
        (temporal(kind::SINCE, 2, 1, [0, 1023]), 4),
        (span(kind::ONCE, 1, [10, 20]), 2),
        (span(kind::HISTORICALLY, 2, [0, 1023]), 4),
        (join(kind::OR, 0, 2), 4),
        (join(kind::AND, 2, 0), 4),
        (join(kind::IMPLIES, 1, 0), 2),
        (not(2), 4),
    ] {
        assert_eq!(line_reaches(&[&ahead[..], &[line]].concat()), [0, 2, 4, reach], "{line:?}");
    }
}

/// 63 lines that look ahead over each other: 63 times 1,023, which 16 bits hold.
#[test]
fn the_largest_reach() {
    for line in [
        |last| temporal(kind::UNTIL, last, 0, [0, 1023]),
        |last| temporal(kind::UNTIL, 0, last, [1023, 1023]),
        |last| span(kind::EVENTUALLY, last, [0, 1023]),
        |last| span(kind::ALWAYS, last, [1, 1023]),
    ] {
        let lines: Vec<Line> = [TRUE].into_iter().chain((0..63).map(line)).collect();
        let expected: Vec<u16> = (0..64).map(|number| number * 1023).collect();
        assert_eq!(line_reaches(&lines), expected);
        assert_eq!(expected[63], 64_449);
    }
}

/// One to eight rules, anywhere among the lines; the first of them is rule 0.
#[test]
fn the_order_is_that_of_the_rules() {
    let ahead = |upper| span(kind::EVENTUALLY, 0, [0, upper]);
    let lines = [rule(TRUE), ahead(7), rule(ahead(9)), rule(ahead(3)), ahead(5), rule(ahead(8)), rule(not(1))];
    assert_eq!(reaches(&written(&lines)), [0, 9, 3, 8, 7]);
    for rules in 1..=Sizes::LARGEST.rules {
        let mut lines = [TRUE; 64];
        for number in 1..64 {
            lines[number as usize] = Line { rule: u16::from(64 - number <= rules as u16), ..ahead(1000 - number) };
        }
        let expected: Vec<u16> = (64 - rules as u16..64).map(|number| 1000 - number).collect();
        assert_eq!(reaches(&written(&lines)), expected);
    }
}

/// Three rules among five lines: true, mark 0 within the next 2 minutes, and that it is not so for the next 3.
const THREE: [u8; 21] = [1, 1, 4, 0, 5, 0x20, 0x01, 1, 0x33, 10, 1, 2, 0, 0x03, 2, 2, 0x33, 11, 3, 3, 0];

/// A shorter one is refused and not written, a longer one keeps its rest.
#[test]
fn buffers_of_every_length() {
    let expected = [0, 2, 5];
    for length in 0..20 {
        let mut out = vec![KEPT; length];
        let answer = rule_reaches(&THREE, &mut out);
        if length < expected.len() {
            assert_eq!((answer, out), (refused(Reason::ShortBuffer, 0), vec![KEPT; length]));
        } else {
            assert_eq!(answer, Ok(expected.len()));
            assert_eq!(out, [&expected[..], &vec![KEPT; length - expected.len()]].concat());
        }
    }
}

/// 1 to 4 as the policy's reader has them, then 11; whatever room there is, nothing is written.
#[test]
fn what_is_refused_is_not_written() {
    let nine = [&[1, 1, 4, 0, 9][..], &[0x20; 9]].concat();
    for (policy, reason, place) in [
        (&[][..], Reason::TruncatedPolicy, 0),
        (&THREE[..4], Reason::TruncatedPolicy, 4),
        (&THREE[..5], Reason::TruncatedPolicy, 5),
        (&THREE[..20], Reason::TruncatedPolicy, 20),
        (&[&THREE[..], &[0, 0]].concat(), Reason::TruncatedPolicy, 21),
        (&[33, 1, 4, 0, 1, 0x20], Reason::BadHeading, 0),
        (&[1, 0, 4, 0, 1, 0x20], Reason::BadHeading, 1),
        (&[1, 1, 1, 4, 1, 0x20], Reason::BadHeading, 2),
        (&[1, 1, 4, 0, 65, 0x20], Reason::BadHeading, 4),
        (&[1, 1, 4, 0, 1, 0x60], Reason::BadSubformula, 5),
        (&[1, 1, 4, 0, 2, 0x20, 0x21, 12], Reason::BadSubformula, 6),
        // an upper of 1,024, and an operand that is no earlier line
        (&[1, 1, 4, 0, 2, 0x00, 0x31, 10, 0, 4], Reason::BadSubformula, 6),
        (&[1, 1, 4, 0, 2, 0x00, 0x33, 10, 1, 1, 0], Reason::BadSubformula, 6),
        (&[1, 1, 4, 0, 1, 0x00], Reason::RuleCount, 0),
        (&nine, Reason::RuleCount, 0),
    ] {
        for length in [0, 1, 8, 9] {
            let mut out = vec![KEPT; length];
            assert_eq!(rule_reaches(policy, &mut out), refused(reason, place), "{policy:02X?}");
            assert_eq!(out, vec![KEPT; length]);
        }
    }
    assert_eq!(rule_reaches(&THREE, &mut []), refused(Reason::ShortBuffer, 0));
}

/// Mark 0 is false at every minute, and one component observes at each: with mark 0 wanted within the next minutes, rules are broken up to
/// the last minute from which they see no further than the end, and blank from the next one on.
#[cfg(feature = "alloc")]
#[test]
fn a_shift_that_is_known_whole_has_no_blank_below_the_reach() {
    use zankezurt::{encode_message, Message, Shift, Verdict, MESSAGE_LENGTH};

    const MINUTES: usize = 12;
    let uppers = [0, 1, 2, 5, 10, 11, 12, 1023];
    let rules = uppers.map(|upper| rule(span(kind::EVENTUALLY, 0, [0, upper])));
    let mut policy = [0; POLICY_LENGTH];
    let length = encode_policy(1, 1, MINUTES, &[&[proposition(0)], &rules[..]].concat(), &mut policy).unwrap();
    let policy = &policy[..length];
    assert_eq!(reaches(policy), uppers);

    let mut shift = Shift::open(policy).unwrap();
    for minute in (0..MINUTES).rev() {
        let message = Message { minute, number: minute + 1, named: 1, ..Message::default() };
        let mut out = [0; MESSAGE_LENGTH];
        let length = encode_message(policy, message, &mut out).unwrap();
        shift.receive(&out[..length]).unwrap();
    }
    for (rule, reach) in uppers.into_iter().enumerate() {
        for minute in 0..MINUTES {
            let sure = minute + usize::from(reach) < MINUTES;
            let expected = if sure { Verdict::Violated } else { Verdict::Unknown };
            assert_eq!(shift.lookup(rule, minute), Ok(expected), "rule {rule} at {minute}");
        }
    }
}
