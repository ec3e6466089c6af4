//! Rules typed as text: the policy that is written, what is refused and where, and buffers that are too short, right and longer.

#[path = "common/lines.rs"]
mod lines;

use lines::{join, not, proposition, TRUE};
use zankezurt::{compile_rule, encode_policy, kind, Line, Reason, Refusal, POLICY_LENGTH};

/// What every buffer holds before a call.
const KEPT: u8 = 0x5A;

/// The policy of a rule, with 4 propositions, 2 components and 300 minutes.
fn policy(text: &str) -> Result<Vec<u8>, Refusal> {
    let mut out = [KEPT; POLICY_LENGTH];
    let answer = compile_rule(text.as_bytes(), 4, 2, 300, &mut out);
    let length = answer.unwrap_or(0);
    assert!(out[length..].iter().all(|byte| *byte == KEPT), "{text}");
    answer.map(|length| out[..length].to_vec())
}

fn refused<T>(reason: Reason, place: usize) -> Result<T, Refusal> {
    Err(Refusal { reason, place })
}

/// The policy of these lines, the last of which is the rule.
fn written(lines: &[Line]) -> Vec<u8> {
    let mut lines = lines.to_vec();
    lines.last_mut().unwrap().rule = 1;
    let mut out = [0; POLICY_LENGTH];
    let length = encode_policy(4, 2, 300, &lines, &mut out).unwrap();
    out[..length].to_vec()
}

#[test]
fn each_term_is_a_line_in_the_order_in_which_their_texts_end() {
    let until = Line { upper: 2, ..join(kind::UNTIL, 2, 4) };
    let since = Line { lower: 5, upper: 1023, ..join(kind::SINCE, 1, 2) };
    for (text, lines) in [
        ("true", vec![TRUE]),
        ("m3", vec![proposition(3)]),
        ("not not m0", vec![proposition(0), not(0), not(1)]),
        ("(m1 and m1)", vec![proposition(1), proposition(1), join(kind::AND, 0, 1)]),
        (
            "((m3 or true) until[0,2] not m1)",
            vec![proposition(3), TRUE, join(kind::OR, 0, 1), proposition(1), not(3), until],
        ),
        ("(not m1 since[5,1023] true)", vec![proposition(1), not(0), TRUE, since]),
    ] {
        assert_eq!(policy(text).unwrap(), written(&lines), "{text}");
    }
}

#[test]
fn what_is_no_rule_is_13_and_what_is_too_much_is_14() {
    for (text, place) in
        [("", 0), ("m09", 2), ("nottrue", 3), ("(m1  or m2)", 4), ("(m1 since[5,3", 13), ("m1\n", 2), ("\u{e9}", 0)]
    {
        assert_eq!(policy(text), refused(Reason::RuleSyntax, place), "{text}");
    }
    for (text, place) in [
        ("m99", 1),
        ("(m1 since[2000,3] m2)", 9),
        ("(m1 since[2000,3", 10),
        ("(m1 since[5,3] m9)", 9),
        ("m4294967296", 1),
    ] {
        assert_eq!(policy(text), refused(Reason::RuleLimit, place), "{text}");
    }
    // 2^64 and more, which are not cut to the numbers that they would be in 64 bits
    assert_eq!(policy("(m1 since[18446744073709551616,3] m2)"), refused(Reason::RuleLimit, 9));
    assert_eq!(policy("(m1 since[3,18446744073709551620] m2)"), refused(Reason::RuleLimit, 12));
    assert_eq!(policy("m18446744073709551617"), refused(Reason::RuleLimit, 1));
}

#[test]
fn brackets_nest_to_32_and_terms_are_64() {
    assert_eq!(policy(&"(".repeat(32)), refused(Reason::RuleSyntax, 32));
    assert_eq!(policy(&"(".repeat(100_000)), refused(Reason::RuleLimit, 32));
    assert_eq!(policy(&("not ".repeat(63) + "true")).unwrap()[4], 64);
    assert_eq!(policy(&"not ".repeat(64)), refused(Reason::RuleLimit, 256));
    assert_eq!(policy(&"not ".repeat(100_000)), refused(Reason::RuleLimit, 256));
    assert_eq!(policy(&("m".to_string() + &"9".repeat(100_000))), refused(Reason::RuleLimit, 1));
}

/// A shorter one is refused and not written, a longer one keeps its rest.
#[test]
fn buffers_of_every_length() {
    let policy = [4, 2, 0x2C, 0x01, 2, 0x03, 1, 1, 0x21, 2];
    for length in 0..30 {
        let mut out = vec![KEPT; length];
        let answer = compile_rule(b"not m1", 4, 2, 300, &mut out);
        if length < policy.len() {
            assert_eq!((answer, out), (refused(Reason::ShortBuffer, 0), vec![KEPT; length]));
        } else {
            assert_eq!(answer, Ok(policy.len()));
            assert_eq!(out, [&policy[..], &vec![KEPT; length - policy.len()]].concat());
        }
    }
}

/// 2, then 13 and 14, then 11.
#[test]
fn the_order_of_the_checks() {
    let answer = |text: &[u8], [propositions, components, minutes]: [usize; 3]| {
        compile_rule(text, propositions, components, minutes, &mut [])
    };
    for sizes in [[0, 1, 1], [33, 1, 1], [257, 1, 1], [1, 0, 1], [1, 17, 1], [1, 1, 0], [1, 1, 1025], [1, 1, 65537]] {
        for text in ["true", "m9", "x"] {
            assert_eq!(answer(text.as_bytes(), sizes), refused(Reason::BadHeading, 0));
        }
    }
    assert_eq!(answer(b"m9", [1, 1, 1]), refused(Reason::RuleLimit, 1));
    assert_eq!(answer(b"x", [1, 1, 1]), refused(Reason::RuleSyntax, 0));
    assert_eq!(answer(b"true", [1, 1, 1]), refused(Reason::ShortBuffer, 0));
    assert_eq!(answer(b"true", [32, 16, 1024]), refused(Reason::ShortBuffer, 0));
}
