//! Lines of all twelve kinds: how each is written, that a state opens under them, which fields each may have, and that those of the last six
//! have the verdicts of what they abbreviate.
#![cfg(feature = "alloc")]

#[path = "common/lines.rs"]
mod lines;

use lines::{join, not, proposition, TRUE};
use zankezurt::{encode_policy, kind, Line, Reason, Refusal, Shift, Sizes, Verdict, POLICY_LENGTH};

/// A since or an until.
fn temporal(kind: u16, first: u16, second: u16) -> Line {
    Line { kind, first, second, lower: 1, upper: 258, ..TRUE }
}

/// A once, historically, eventually or always.
fn span(kind: u16, first: u16) -> Line {
    temporal(kind, first, 0)
}

/// The same line as a rule.
fn rule(line: Line) -> Line {
    Line { rule: 1, ..line }
}

/// One line of each kind, with all fields that it can have.
fn of_each_kind() -> [Line; 12] {
    [
        TRUE,
        proposition(1),
        not(1),
        join(kind::OR, 1, 2),
        temporal(kind::SINCE, 1, 2),
        temporal(kind::UNTIL, 1, 2),
        join(kind::AND, 1, 2),
        join(kind::IMPLIES, 1, 2),
        span(kind::ONCE, 1),
        span(kind::HISTORICALLY, 1),
        span(kind::EVENTUALLY, 1),
        rule(span(kind::ALWAYS, 1)),
    ]
}

/// Their bytes, after the heading: 2 propositions, 1 component, 4 minutes, 12 lines.
const WRITTEN: [&[u8]; 13] = [
    &[0x02, 0x01, 0x04, 0x00, 0x0C],
    &[0x00],
    &[0x03, 0x01, 0x01],
    &[0x03, 0x02, 0x01],
    &[0x07, 0x03, 0x01, 0x02],
    &[0x1F, 0x04, 0x01, 0x02, 0x01, 0x00, 0x02, 0x01],
    &[0x1F, 0x05, 0x01, 0x02, 0x01, 0x00, 0x02, 0x01],
    &[0x07, 0x06, 0x01, 0x02],
    &[0x07, 0x07, 0x01, 0x02],
    &[0x1B, 0x08, 0x01, 0x01, 0x00, 0x02, 0x01],
    &[0x1B, 0x09, 0x01, 0x01, 0x00, 0x02, 0x01],
    &[0x1B, 0x0A, 0x01, 0x01, 0x00, 0x02, 0x01],
    &[0x3B, 0x0B, 0x01, 0x01, 0x00, 0x02, 0x01],
];

/// The policy of these lines, with 2 propositions, 1 component and 4 minutes.
fn policy(lines: &[Line]) -> Result<Vec<u8>, Refusal> {
    let mut out = [0; POLICY_LENGTH];
    encode_policy(2, 1, 4, lines, &mut out).map(|length| out[..length].to_vec())
}

#[test]
fn a_state_opens_under_lines_of_all_kinds() {
    let policy = policy(&of_each_kind()).unwrap();
    assert_eq!(policy, WRITTEN.concat());
    let expected = Sizes { propositions: 2, components: 1, minutes: 4, subformulas: 12, rules: 1 };
    assert_eq!(Shift::open(&policy).unwrap().sizes(), expected);
}

/// The fields that a line has no use for, each made 1.
fn spoiled(line: Line) -> Vec<Line> {
    let first = Line { first: 1, ..line };
    let second = Line { second: 1, ..line };
    let upper = Line { upper: 1, ..line };
    match line.kind {
        kind::TRUE => vec![first, second, upper],
        kind::PROPOSITION | kind::NOT => vec![second, upper],
        kind::OR | kind::AND | kind::IMPLIES => vec![upper],
        kind::SINCE | kind::UNTIL => Vec::new(),
        _ => vec![second],
    }
}

#[test]
fn a_kind_has_its_own_fields_and_none_is_above_eleven() {
    let lines = of_each_kind();
    let last = lines.len() - 1;
    let with = |line| policy(&[&lines[..last], &[rule(line)]].concat());
    let refused = Err(Refusal { reason: Reason::BadSubformula, place: 0 });
    for line in lines {
        assert!(with(line).is_ok());
        for bad in spoiled(line) {
            assert_eq!(with(bad), refused, "{bad:?}");
        }
    }
    for bad in [12, 13, 255, 256, 256 + kind::ONCE, u16::MAX] {
        assert_eq!(with(Line { kind: bad, ..TRUE }), refused);
    }
}

/// A kind that is an abbreviation is over earlier lines, and its interval is in order.
#[test]
fn operands_are_earlier_lines_and_lower_is_not_above_upper() {
    let refused = Err(Refusal { reason: Reason::BadSubformula, place: 0 });
    for kind in [kind::ONCE, kind::HISTORICALLY, kind::EVENTUALLY, kind::ALWAYS] {
        let line = |first, lower, upper| policy(&[proposition(0), Line { kind, first, lower, upper, ..rule(TRUE) }]);
        assert!(line(0, 1023, 1023).is_ok());
        for bad in [line(1, 0, 0), line(0, 1, 0), line(0, 0, 1024)] {
            assert_eq!(bad, refused);
        }
    }
    for kind in [kind::AND, kind::IMPLIES] {
        let line = |first, second| policy(&[proposition(0), rule(join(kind, first, second))]);
        assert!(line(0, 0).is_ok());
        assert_eq!([line(1, 0), line(0, 1)], [refused.clone(), refused.clone()]);
    }
}

/// The rules of the six abbreviations, over propositions 0 and 1, from 0 to 1 minutes away.
fn short() -> Vec<Line> {
    let near = |kind, first| Line { upper: 1, ..join(kind, first, 0) };
    let rules = [
        join(kind::AND, 0, 1),
        join(kind::IMPLIES, 0, 1),
        near(kind::ONCE, 1),
        near(kind::HISTORICALLY, 1),
        near(kind::EVENTUALLY, 1),
        near(kind::ALWAYS, 1),
    ];
    [proposition(0), proposition(1)].into_iter().chain(rules.map(rule)).collect()
}

/// The same rules, written out.
fn long() -> Vec<Line> {
    let near = |kind, second| Line { upper: 1, ..join(kind, 2, second) };
    vec![
        proposition(0),
        proposition(1),
        TRUE,
        not(0),
        not(1),
        join(kind::OR, 3, 4),
        rule(not(5)),
        rule(join(kind::OR, 3, 1)),
        rule(near(kind::SINCE, 1)),
        near(kind::SINCE, 4),
        rule(not(9)),
        rule(near(kind::UNTIL, 1)),
        near(kind::UNTIL, 4),
        rule(not(12)),
    ]
}

/// The verdicts after each message that observes at a minute, with this number, what it knows and the values.
fn sheets(lines: &[Line], observed: &[[u8; 4]]) -> Vec<Vec<(usize, usize, Verdict)>> {
    let mut shift = Shift::open(&policy(lines).unwrap()).unwrap();
    let sheet = |&[minute, number, known, values]: &[u8; 4]| {
        let start = if minute == 0 { vec![0x0C] } else { vec![0x0E, minute, 0] };
        shift.receive(&[&start[..], &[number, 0, known, 0, 0, 0, values]].concat()).unwrap();
        shift.verdicts().collect()
    };
    observed.iter().map(sheet).collect()
}

/// Minutes 0 to 3, in some order, and all values of both propositions there; minute 1 says nothing of proposition 0.
#[test]
fn an_abbreviation_has_the_verdicts_of_what_it_abbreviates() {
    let mut seen = [0; 3];
    for values in 0..=255u8 {
        let pair = |minute: u8| values >> (2 * minute) & 3;
        let observed = [[2, 3, 3, pair(2)], [0, 1, 3, pair(0)], [3, 4, 3, pair(3)], [1, 2, 2, pair(1) >> 1]];
        let sheets = [short(), long()].map(|lines| sheets(&lines, &observed));
        assert_eq!(sheets[0], sheets[1]);
        for (_, _, verdict) in sheets[0].iter().flatten() {
            seen[*verdict as usize] += 1;
        }
    }
    assert!(seen[Verdict::Satisfied as usize] > 1_000 && seen[Verdict::Violated as usize] > 1_000);
}
