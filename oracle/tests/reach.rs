//! The reach of a line, of request 8 of document 02, for every kind; and the call that writes the rules' reaches.

use oracle::generate::{self, Limits, Random, LARGEST, MEDIUM, SMALL, TINY};
use oracle::policy::Formula::*;
use oracle::policy::{self, Formula, Span, Subformula, Temporal, HIGHEST_BOUND, MOST_SUBFORMULAS};
use oracle::reach::{reach, reaches};
use oracle::refusal::*;
use oracle::write::Line;
use oracle::written_out::{written_out, WrittenOut};
use oracle::{rule_reaches, Policy, Refusal};
use std::ops::Range;

/// Mark 0 within the next minute: card K with the last line `35 05 01 01 00`.
const K_UNTIL: &[u8] = &[0x01, 0x01, 0x04, 0x00, 0x03, 0x00, 0x01, 0x01, 0x35, 0x05, 0x01, 0x01, 0x00];

fn parts(first: usize, second: usize, lower: usize, upper: usize) -> Temporal {
    Temporal { first, second, lower, upper }
}

fn span(first: usize, lower: usize, upper: usize) -> Span {
    Span { first, lower, upper }
}

/// A policy with these lines, those with these numbers being rules.
fn policy_with(formulas: &[Formula], rules: Range<usize>) -> Policy {
    let line = |(number, formula): (usize, &Formula)| Subformula { formula: *formula, rule: rules.contains(&number) };
    let subformulas = formulas.iter().enumerate().map(line).collect();
    Policy { propositions: 2, components: 1, minutes: 4, subformulas }
}

fn reaches_of(formulas: &[Formula]) -> Vec<usize> {
    reaches(&policy_with(formulas, 0..1))
}

#[test]
fn a_line_of_each_kind() {
    let lines = [
        True,
        Proposition(1),
        Until(parts(0, 1, 2, 5)),
        Eventually(span(1, 0, 3)),
        Always(span(0, 7, 7)),
        Not(2),
        Or(2, 3),
        And(3, 2),
        Implies(1, 3),
        Since(parts(3, 2, 1, 900)),
        Once(span(4, 0, 900)),
        Historically(span(3, 900, 900)),
    ];
    assert_eq!(reaches_of(&lines), [0, 0, 5, 3, 7, 5, 5, 5, 3, 5, 7, 3]);
}

/// The larger operand counts, whichever of the two it is, and only upper is added.
#[test]
fn a_line_over_two_that_look_ahead() {
    let over = |formula| {
        let reaches = reaches_of(&[Proposition(0), Eventually(span(0, 0, 2)), Always(span(0, 3, 4)), formula]);
        assert_eq!(reaches[..3], [0, 2, 4]);
        reaches[3]
    };
    for (first, second) in [(1, 2), (2, 1), (0, 2), (2, 0), (2, 2)] {
        assert_eq!(over(Or(first, second)), 4);
        assert_eq!(over(And(first, second)), 4);
        assert_eq!(over(Implies(first, second)), 4);
        assert_eq!(over(Since(parts(first, second, 10, 20))), 4);
        assert_eq!(over(Until(parts(first, second, 10, 20))), 24);
        assert_eq!(over(Until(parts(first, second, 0, 0))), 4);
    }
    assert_eq!(over(Not(1)), 2);
    assert_eq!(over(Once(span(1, 10, 20))), 2);
    assert_eq!(over(Historically(span(1, 10, 20))), 2);
    assert_eq!(over(Eventually(span(1, 10, 20))), 22);
    assert_eq!(over(Always(span(1, 10, 20))), 22);
}

/// Ahead, back and ahead again: what looks back takes nothing off.
#[test]
fn lines_over_lines_over_lines() {
    let lines = [
        Proposition(0),
        Until(parts(0, 0, 0, 1)),
        Until(parts(0, 1, 0, 10)),
        Until(parts(2, 0, 0, 100)),
        Once(span(3, 0, 1000)),
        Not(4),
        Always(span(5, 0, 1000)),
        Implies(6, 0),
        Eventually(span(7, 1023, 1023)),
    ];
    assert_eq!(reaches_of(&lines), [0, 1, 11, 111, 111, 111, 1111, 1111, 2134]);
}

/// "Plus upper for until, eventually and always": since, once and historically look back, however far.
#[test]
fn since_once_and_historically_add_nothing() {
    for (lower, upper) in [(0, 0), (0, 1), (1, 1), (0, 1023), (512, 1023), (1023, 1023)] {
        let back = |operand| [Since(parts(operand, operand, lower, upper)), Once(span(operand, lower, upper))];
        let more = |operand| Historically(span(operand, lower, upper));
        let over = |reach, formula| {
            let lines = [&[Proposition(0), formula], &back(1)[..], &[more(1)], &back(4)[..], &[more(5)]].concat();
            assert_eq!(reaches_of(&lines), [vec![0], vec![reach; 7]].concat());
        };
        over(0, Not(0));
        over(3, Eventually(span(0, 2, 3)));
        over(1023, Always(span(0, 0, 1023)));
    }
}

/// 63 lines that look ahead over each other: 63 times 1,023.
#[test]
fn the_largest_reach() {
    let lines: [fn(usize) -> Formula; 5] = [
        |line| Until(parts(line, line, 0, HIGHEST_BOUND)),
        |line| Until(parts(0, line, HIGHEST_BOUND, HIGHEST_BOUND)),
        |line| Until(parts(line, 0, 5, HIGHEST_BOUND)),
        |line| Eventually(span(line, 0, HIGHEST_BOUND)),
        |line| Always(span(line, 1, HIGHEST_BOUND)),
    ];
    for over in lines {
        let formulas: Vec<Formula> = [True].into_iter().chain((0..MOST_SUBFORMULAS - 1).map(over)).collect();
        let expected: Vec<usize> = (0..MOST_SUBFORMULAS).map(|line| line * 1023).collect();
        assert_eq!(reaches_of(&formulas), expected);
        let mut out = [9; 9];
        assert_eq!(rule_reaches(&generate::encode_policy(&policy_with(&formulas, 0..8)), &mut out), Ok(8));
        assert_eq!(out, [0, 1023, 2046, 3069, 4092, 5115, 6138, 7161, 9]);
        assert_eq!(rule_reaches(&generate::encode_policy(&policy_with(&formulas, 62..64)), &mut out), Ok(2));
        assert_eq!(out, [63426, 64449, 2046, 3069, 4092, 5115, 6138, 7161, 9]);
    }
}

/// The longest way down: of all ways from a line to an operand, to an operand of that and so on, the largest sum of the
/// uppers of kinds 5, 10 and 11 on it.
fn longest_way(lines: &[Line], line: usize) -> usize {
    let Line { kind, first, second, upper, .. } = lines[line];
    let operands: &[u16] = match kind {
        0 | 1 => &[],
        2 | 8..=11 => &[first],
        _ => &[first, second],
    };
    let ahead = if [5, 10, 11].contains(&kind) { usize::from(upper) } else { 0 };
    ahead + operands.iter().map(|operand| longest_way(lines, usize::from(*operand))).max().unwrap_or(0)
}

/// By the definition, in one go, as the longest way down, and where lines of the newer kinds are written out.
#[test]
fn the_reach_four_ways() {
    let mut random = Random::new(81);
    let mut highest = 0;
    for limits in [TINY, SMALL, Limits { subformulas: 16, ..LARGEST }] {
        for _ in 0..1000 {
            let policy = generate::policy(&mut random, &limits);
            let lines: Vec<Line> = policy.subformulas.iter().map(Line::from).collect();
            let reaches = reaches(&policy);
            let WrittenOut { policy: longer, numbers } = written_out(&policy, |_| true);
            let longer_reaches = oracle::reach::reaches(&longer);
            for line in 0..lines.len() {
                assert_eq!(reaches[line], reach(&policy, line));
                assert_eq!(reaches[line], longest_way(&lines, line));
                assert_eq!(reaches[line], longer_reaches[numbers[line]]);
                highest = highest.max(reaches[line]);
            }
        }
    }
    assert!(highest > 2000, "{highest}");
}

fn refused(number: u8, place: usize) -> Result<usize, Refusal> {
    Err(Refusal { number, place })
}

/// Three rules among five lines: true, mark 0 within the next 2 minutes, and that for the next 3.
const THREE_RULES: &[u8] = &[1, 1, 4, 0, 5, 0x20, 0x01, 1, 0x33, 10, 1, 2, 0, 0x03, 2, 2, 0x33, 11, 2, 3, 0];

#[test]
fn the_rules_reaches_are_written() {
    assert_eq!(reaches(&policy::read(THREE_RULES).unwrap()), [0, 0, 2, 2, 5]);
    for room in 0..6 {
        let mut out = vec![7; room];
        let answer = rule_reaches(THREE_RULES, &mut out);
        let expected = match room {
            0..3 => refused(SHORT_BUFFER, 0),
            _ => Ok(3),
        };
        assert_eq!(answer, expected, "room for {room}");
        let written: &[u16] = if room < 3 { &[] } else { &[0, 2, 5] };
        assert_eq!(out[..written.len()], *written);
        assert_eq!(out[written.len()..], vec![7; room - written.len()]);
    }
    let mut out = [7];
    assert_eq!((rule_reaches(K_UNTIL, &mut out), out), (Ok(1), [1]));
    assert_eq!(rule_reaches(K_UNTIL, &mut []), refused(SHORT_BUFFER, 0));
}

/// The number and place of the policy's reader, before 11; and nothing is written.
#[test]
fn a_policy_that_is_refused() {
    let cases: [(&[u8], u8, usize); 16] = [
        (&[], TRUNCATED_POLICY, 0),
        (&K_UNTIL[..4], TRUNCATED_POLICY, 4),
        (&K_UNTIL[..5], TRUNCATED_POLICY, 5),
        (&K_UNTIL[..12], TRUNCATED_POLICY, 12),
        (&[K_UNTIL, &[0]].concat(), TRUNCATED_POLICY, 13),
        (&[K_UNTIL, &[0, 0, 0]].concat(), TRUNCATED_POLICY, 13),
        (&[0, 1, 4, 0, 1, 0x20], BAD_HEADING, 0),
        (&[1, 17, 4, 0, 1, 0x20], BAD_HEADING, 1),
        (&[1, 1, 1, 4, 1, 0x20], BAD_HEADING, 2),
        (&[1, 1, 4, 0, 65, 0x20], BAD_HEADING, 4),
        (&[1, 1, 4, 0, 1, 0x60], BAD_SUBFORMULA, 5),
        (&[1, 1, 4, 0, 2, 0x20, 0x21, 12], BAD_SUBFORMULA, 6),
        // Upper 1,024, and an operand that is no earlier line.
        (&[1, 1, 4, 0, 2, 0x00, 0x31, 10, 0x00, 0x04], BAD_SUBFORMULA, 6),
        (&[1, 1, 4, 0, 2, 0x00, 0x33, 10, 1, 1, 0], BAD_SUBFORMULA, 6),
        (&[1, 1, 4, 0, 1, 0x00], RULE_COUNT, 0),
        (&[1, 1, 4, 0, 9, 0x20, 0x20, 0x20, 0x20, 0x20, 0x20, 0x20, 0x20, 0x20], RULE_COUNT, 0),
    ];
    for (bytes, number, place) in cases {
        for room in [0, 1, 8, 9] {
            let mut out = vec![7; room];
            assert_eq!(rule_reaches(bytes, &mut out), refused(number, place), "{bytes:02X?}");
            assert_eq!(out, vec![7; room]);
        }
    }
}

#[test]
fn random_policies_right_and_wrong() {
    let mut random = Random::new(82);
    let mut seen = [0; 12];
    for round in 0..12000 {
        let limits = [TINY, SMALL, MEDIUM, LARGEST][round % 4];
        let policy = generate::policy(&mut random, &limits);
        let bytes = match random.below(3) {
            0 => generate::encode_policy(&policy),
            1 => generate::damaged(&mut random, &generate::encode_policy(&policy)),
            _ => generate::stray_policy(&mut random, &policy),
        };
        let room = random.below(10);
        let before: Vec<u16> = (0..room).map(|_| random.word() as u16).collect();
        let mut out = before.clone();
        let answer = rule_reaches(&bytes, &mut out);
        let read = policy::read(&bytes);
        let rules = read.as_ref().map_or(0, |policy| policy.rules().len());
        match read {
            Err(refusal) => assert_eq!((answer, &out), (Err(refusal), &before)),
            Ok(_) if room < rules => assert_eq!((answer, &out), (refused(SHORT_BUFFER, 0), &before)),
            Ok(policy) => {
                let reaches = reaches(&policy);
                let expected: Vec<u16> = policy.rules().iter().map(|line| reaches[*line] as u16).collect();
                assert_eq!((answer, &out), (Ok(rules), &[&expected, &before[rules..]].concat()));
            }
        }
        seen[answer.map_or_else(|refusal| usize::from(refusal.number), |_| 0)] += 1;
    }
    assert!([0, 1, 2, 3, 4, 11].iter().all(|number| seen[*number] > 100), "{seen:?}");
}
