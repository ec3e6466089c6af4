//! Rules typed as text: worked examples, the reader and the grammar agree on many texts, the policy of an accepted text,
//! and that its rule reads as the term does.

use oracle::generate::{self, Random};
use oracle::generate_rules::{self, grammatical, nested, rule, Numbers};
use oracle::policy::{self, Formula, Policy, Subformula};
use oracle::reading::{expression_in, expression_sheets, two_valued, valuation, verdicts};
use oracle::refusal::*;
use oracle::rule_grammar::{parsed, Limit, Parsed};
use oracle::rule_text::{self, compile, compile_rule};
use oracle::{knowledge, Buffers, Refusal};
use std::collections::BTreeMap;

/// What both deciders say of a text, which must be the same.
fn verdict(text: &[u8], propositions: usize) -> Result<(), Refusal> {
    agreed(text, propositions).verdict()
}

/// What the grammar says of a text; the reader must agree.
fn agreed(text: &[u8], propositions: usize) -> Parsed {
    let parsed = parsed(text, propositions);
    let read = rule_text::read(text, propositions).map(|_| ());
    assert_eq!(read, parsed.verdict(), "{:?} with {propositions}", String::from_utf8_lossy(text));
    parsed
}

/// With 4 propositions.
fn assert_refused(text: &str, number: u8, place: usize) {
    assert_eq!(verdict(text.as_bytes(), 4), Err(Refusal { number, place }), "{text}");
}

fn assert_taken(text: &str) {
    assert_eq!(verdict(text.as_bytes(), 4), Ok(()), "{text}");
}

#[test]
fn what_is_taken() {
    for text in ["true", "m0", "m3", "not true", "not not (m1 and true)", "(m1 or m2)", "(m1 since[0,0] m2)"] {
        assert_taken(text);
    }
    assert_taken("(not m1 since[5,1023] not true)");
    assert_taken("((m1 or m2) until[1023,1023] (true and not not m0))");
}

#[test]
fn what_is_unreadable() {
    for (text, place) in [
        ("", 0),
        (" true", 0),
        ("tru", 3),
        ("truE", 3),
        ("true ", 4),
        ("m", 1),
        ("mx", 1),
        ("m09", 2),
        ("m00", 2),
        ("m1 ", 2),
        ("not", 3),
        ("not ", 4),
        ("nottrue", 3),
        ("not  true", 4),
        ("()", 1),
        ("( m1 or m2)", 1),
        ("(m1)", 3),
        ("(m1 ", 4),
        ("(m1  or m2)", 4),
        ("(m1 xor m2)", 4),
        ("(m1 or m2", 9),
        ("(m1 or m2 )", 9),
        ("(m1 or m2 or m3)", 9),
        ("(m1 or m2) ", 10),
        ("(m1 or m2))", 10),
        ("(m1 since m2)", 9),
        ("(m1 since [0,1] m2)", 9),
        ("(m1 since[ 0,1] m2)", 10),
        ("(m1 since[,1] m2)", 10),
        ("(m1 since[0] m2)", 11),
        ("(m1 since[0 ,1] m2)", 11),
        ("(m1 since[00,1] m2)", 11),
        ("(m1 since[0, 1] m2)", 12),
        ("(m1 since[0,] m2)", 12),
        ("(m1 since[0,1 ] m2)", 13),
        ("(m1 since[0,1]m2)", 14),
        ("(m1 since[5,3", 13),
        ("(m1 since[5,3 ] m2)", 13),
        ("(m1 since[5,03]", 13),
    ] {
        assert_refused(text, RULE_SYNTAX, place);
    }
}

#[test]
fn what_is_too_much() {
    for (text, place) in [
        ("m4", 1),
        ("m99", 1),
        ("m9x", 1),
        ("(m99", 2),
        ("(m1 since[5,3]", 9),
        ("(m1 since[5,3]x", 9),
        ("(m1 since[2000,3] m2)", 9),
        ("(m1 since[2000,3", 10),
        ("(m1 since[2000x", 10),
        ("(m1 since[1024", 10),
        ("(m1 since[2000,3000] m2)", 10),
        ("(m1 since[2000,2000] m2)", 10),
        ("(m1 since[5,1024", 12),
        ("(m1 since[5,3] m9)", 9),
        ("(m9 since[5,3] m2)", 2),
        ("(m1 since[999999999999999999999999999999,999999999999999999999999999998] m2)", 9),
        ("(m1 since[999999999999999999999999999998,999999999999999999999999999999] m2)", 10),
        ("(m1 since[18446744073709551616,3] m2)", 9),
        ("(m1 since[3,18446744073709551616] m2)", 12),
        ("m18446744073709551616", 1),
    ] {
        assert_refused(text, RULE_LIMIT, place);
    }
}

#[test]
fn brackets_nest_to_32() {
    let open = "(".repeat(32);
    assert_refused(&open, RULE_SYNTAX, 32);
    assert_refused(&format!("{open}x"), RULE_SYNTAX, 32);
    assert_refused(&format!("{open}m9"), RULE_LIMIT, 33);
    assert_refused(&format!("{open}("), RULE_LIMIT, 32);
    assert_refused(&format!("{open}not ("), RULE_LIMIT, 36);
    assert_refused(&format!("{open}m1 or ("), RULE_LIMIT, 38);
    // 31 that nest are 63 terms; 32 are 65, of which the last is the last operand.
    let nested = |depth| format!("{}m1{}", "(".repeat(depth), " or m2)".repeat(depth));
    assert_taken(&nested(31));
    assert_taken(&format!("not {}", nested(31)));
    assert_refused(&nested(32), RULE_LIMIT, nested(32).len() - "m2)".len());
    assert_refused(&nested(33), RULE_LIMIT, 32);
    // Brackets that are closed are not open.
    let pair = "(m1 or m2)";
    assert_taken(&format!("(({pair} or {pair}) or {pair})"));
    assert_refused(&format!("{}({pair} or m1", "(".repeat(30)), RULE_SYNTAX, 30 + 1 + pair.len() + 6);
}

#[test]
fn terms_are_64() {
    let nots = |count| "not ".repeat(count);
    assert_taken(&format!("{}true", nots(63)));
    for behind in ["", "x", "true", "m9", "(", "m"] {
        assert_refused(&format!("{}{behind}", nots(64)), RULE_LIMIT, 256);
    }
    assert_refused(nots(64).trim_end(), RULE_SYNTAX, 255);
    assert_refused(&format!("{}{}", nots(63), "m9"), RULE_LIMIT, 253);
    // The group and its first term are the 63rd and 64th; where the second is due there is one too many.
    let first = format!("{}(m1 or ", nots(62));
    assert_refused(&first, RULE_LIMIT, first.len());
    assert_refused(first.trim_end(), RULE_SYNTAX, first.len() - 1);
    assert_refused(&format!("{}(m1 since[5,3] ", nots(62)), RULE_LIMIT, 62 * 4 + 9);
    assert_refused(&format!("{first}]"), RULE_LIMIT, first.len());
}

#[test]
fn a_mark_is_below_the_propositions() {
    for propositions in 1..=32 {
        for number in 0..100 {
            let taken = verdict(format!("m{number}").as_bytes(), propositions);
            let too_much = Err(Refusal { number: RULE_LIMIT, place: 1 });
            assert_eq!(taken, if number < propositions { Ok(()) } else { too_much });
        }
    }
}

/// Every text of at most five of these bytes, and every one after the beginning of a group.
#[test]
fn every_short_text() {
    for (start, bytes, most) in
        [("", "true(m01 o", 5), ("(m1 since", "[],015 m)", 6), ("(true", " orandm1)", 6), ("no", "t m1(", 5)]
    {
        let mut texts = vec![start.to_string()];
        for _ in 0..=most {
            // Of those that can't go on the same is said whatever follows.
            texts.retain(|text| agreed(text.as_bytes(), 4).longest == text.len());
            texts = texts.iter().flat_map(|text| bytes.chars().map(move |byte| format!("{text}{byte}"))).collect();
        }
    }
}

/// How often each was seen.
type Seen = BTreeMap<String, usize>;

fn see(seen: &mut Seen, what: &str) {
    *seen.entry(what.to_string()).or_default() += 1;
}

fn assert_seen(seen: &Seen, times: usize, what: &[&str]) {
    for what in what {
        assert!(seen.get(*what).is_some_and(|count| *count >= times), "{what} of {seen:?}");
    }
}

/// What was said of the text: taken, 13 at its end or within, or each limit that is passed at the place of 14.
fn see_verdict(seen: &mut Seen, text: &[u8], parsed: &Parsed) {
    let Err(refusal) = parsed.verdict() else {
        return see(seen, "taken");
    };
    if refusal.number == RULE_SYNTAX {
        return see(seen, if refusal.place == text.len() { "13 at the end" } else { "13 within" });
    }
    for (limit, _) in parsed.limits.iter().filter(|(_, place)| *place == refusal.place) {
        see(seen, &format!("14 {limit:?}"));
    }
    let tie = !parsed.whole && refusal.place == parsed.longest;
    see(
        seen,
        if tie {
            "14 where 13 is"
        } else if parsed.whole {
            "14 alone"
        } else {
            "14 before 13"
        },
    );
    let past = |limit| parsed.limits.iter().any(|(passed, place)| *passed == limit && *place > refusal.place);
    if parsed.limits.contains(&(Limit::Interval, refusal.place)) && past(Limit::Number) {
        see(seen, "14 Interval before Number");
    }
}

#[test]
fn the_reader_and_the_grammar_agree() {
    let mut random = Random::new(70_000);
    let mut seen = Seen::new();
    for _ in 0..150_000 {
        let numbers = generate_rules::numbers(&mut random);
        let text = rule(&mut random, &numbers);
        see_verdict(&mut seen, &text, &agreed(&text, numbers.propositions));
    }
    println!("{seen:?}");
    assert_seen(&seen, 20_000, &["taken", "13 at the end", "13 within"]);
    assert_seen(&seen, 10_000, &["14 Number", "14 Terms", "14 alone", "14 before 13"]);
    assert_seen(&seen, 2_000, &["14 Brackets", "14 Interval", "14 Interval before Number", "14 where 13 is"]);
}

/// Each text cut everywhere, and with every byte changed in several ways.
#[test]
fn they_agree_at_every_byte() {
    let mut random = Random::new(71_000);
    for number in 0..24 {
        let numbers = Numbers { stray: 30, ..generate_rules::numbers(&mut random) };
        let text = match number % 3 {
            0 => nested(&mut random, 32, &numbers),
            _ => grammatical(&mut random, &numbers),
        };
        let text = text.into_bytes();
        for place in 0..text.len() {
            _ = verdict(&text[..place], numbers.propositions);
            for byte in *b" (),]m09" {
                let mut other = text.clone();
                other[place] = byte;
                _ = verdict(&other, numbers.propositions);
                _ = verdict(&[&text[..place], &[byte]].concat(), numbers.propositions);
            }
        }
    }
}

/// A line as a text, and where in it the texts of all lines in it end, by their numbers.
fn text_of(policy: &Policy, number: usize) -> (String, Vec<(usize, usize)>) {
    let mut text = String::new();
    let mut ends = Vec::new();
    write_line(policy, number, &mut text, &mut ends);
    (text, ends)
}

fn write_line(policy: &Policy, number: usize, text: &mut String, ends: &mut Vec<(usize, usize)>) {
    let mut group = |first: usize, join: String, second: usize| {
        text.push('(');
        write_line(policy, first, text, ends);
        text.push_str(&format!(" {join} "));
        write_line(policy, second, text, ends);
        text.push(')');
    };
    match policy.subformulas[number].formula {
        Formula::True => text.push_str("true"),
        Formula::Proposition(k) => text.push_str(&format!("m{k}")),
        Formula::Not(first) => {
            text.push_str("not ");
            write_line(policy, first, text, ends);
        }
        Formula::Or(first, second) => group(first, "or".into(), second),
        Formula::And(first, second) => group(first, "and".into(), second),
        Formula::Since(parts) => group(parts.first, format!("since[{},{}]", parts.lower, parts.upper), parts.second),
        Formula::Until(parts) => group(parts.first, format!("until[{},{}]", parts.lower, parts.upper), parts.second),
        other => panic!("{other:?} is no term"),
    }
    ends.push((number, text.len()));
}

/// A policy of these lines, the last of them the one rule.
fn with_lines(lines: &[Formula]) -> Policy {
    let line = |(number, formula): (usize, &Formula)| Subformula { formula: *formula, rule: number + 1 == lines.len() };
    let subformulas = lines.iter().enumerate().map(line).collect();
    Policy { propositions: 4, components: 2, minutes: 3, subformulas }
}

#[test]
fn the_lines_stand_in_the_order_in_which_their_texts_end() {
    use policy::Temporal;
    use Formula::*;
    let until = Until(Temporal { first: 2, second: 4, lower: 0, upper: 2 });
    let since = Since(Temporal { first: 1, second: 2, lower: 5, upper: 1023 });
    for (text, lines) in [
        ("true", &[True][..]),
        ("m0", &[Proposition(0)]),
        ("((m3 or true) until[0,2] not m1)", &[Proposition(3), True, Or(0, 1), Proposition(1), Not(3), until]),
        ("(not m1 since[5,1023] true)", &[Proposition(1), Not(0), True, since]),
        ("(m1 and m1)", &[Proposition(1), Proposition(1), And(0, 1)]),
        ("not not m2", &[Proposition(2), Not(0), Not(1)]),
        ("(m1 or (m2 and m3))", &[Proposition(1), Proposition(2), Proposition(3), And(1, 2), Or(0, 3)]),
    ] {
        let policy = compile(text.as_bytes(), 4, 2, 3, 517).unwrap();
        assert_eq!(policy::read(&policy), Ok(with_lines(lines)), "{text}");
        assert_eq!(policy, generate::encode_policy(&with_lines(lines)), "{text}");
    }
}

/// It has the sizes given beside the text and one line for each term; the rule, the last, is the text again, and uses
/// every other line once, each before those whose texts end later.
#[test]
fn the_policy_of_a_text_is_the_text() {
    let mut random = Random::new(72_000);
    let mut longest = 0;
    for _ in 0..20_000 {
        let numbers = Numbers { stray: 0, ..generate_rules::numbers(&mut random) };
        let text = grammatical(&mut random, &numbers);
        let (components, minutes) = (random.between(1, 16), random.between(1, 1024));
        let Ok(bytes) = compile(text.as_bytes(), numbers.propositions, components, minutes, 517) else {
            continue;
        };
        let policy = policy::read(&bytes).unwrap();
        assert_eq!(
            (policy.propositions, policy.components, policy.minutes),
            (numbers.propositions, components, minutes)
        );
        let last = policy.subformulas.len() - 1;
        assert_eq!(policy.rules(), [last]);
        let (written, ends) = text_of(&policy, last);
        assert_eq!(written, text);
        // Written with inner before outer and left before right, the lines come in the order of their numbers.
        let order: Vec<usize> = ends.iter().map(|(number, _)| *number).collect();
        assert_eq!(order, (0..=last).collect::<Vec<_>>());
        assert!(ends.is_sorted_by_key(|(_, end)| end));
        longest = longest.max(last + 1);
    }
    assert_eq!(longest, 64);
}

fn refused<T>(number: u8, place: usize) -> Result<T, Refusal> {
    Err(Refusal { number, place })
}

/// 2, then 13 and 14, then 11; a longer buffer keeps its rest, and nothing is written with a refusal.
#[test]
fn the_order_of_the_checks() {
    let sizes =
        [(0, 1, 1), (33, 1, 1), (1, 0, 1), (1, 17, 1), (1, 1, 0), (1, 1, 1025), (usize::MAX, 1, 1), (257, 1, 1)];
    for (propositions, components, minutes) in sizes {
        for text in ["true", "", "m9", "m40"] {
            for room in [0, 517] {
                let answer = compile(text.as_bytes(), propositions, components, minutes, room);
                assert_eq!(answer, refused(BAD_HEADING, 0));
            }
        }
    }
    assert_eq!(compile(b"m9x", 4, 1, 1, 0), refused(RULE_LIMIT, 1));
    assert_eq!(compile(b"m1x", 4, 1, 1, 0), refused(RULE_SYNTAX, 2));
    for room in 0..10 {
        let mut out = vec![0x5A; room];
        let answer = compile_rule(b"m1", 4, 2, 3, &mut out);
        let policy = [4, 2, 3, 0, 1, 0x23, 1, 1];
        if room < policy.len() {
            assert_eq!((answer, out), (refused(SHORT_BUFFER, 0), vec![0x5A; room]));
        } else {
            assert_eq!((answer, &out[..8]), (Ok(8), &policy[..]));
            assert!(out[8..].iter().all(|byte| *byte == 0x5A));
        }
    }
    let mut out = [0x5A; 20];
    assert_eq!(compile_rule(b"not m1 ", 4, 2, 3, &mut out), refused(RULE_SYNTAX, 6));
    assert_eq!(out, [0x5A; 20]);
}

/// The row and the verdicts of the policy's rule are those of the term, three-valued over what is known and two-valued
/// in a trace.
#[test]
fn the_rule_reads_as_the_term() {
    let mut random = Random::new(73_000);
    let mut codes = [0; 3];
    for _ in 0..3_000 {
        let numbers = Numbers { propositions: random.between(1, 3), bound: random.below(7), stray: 0 };
        let (terms, depth) = (random.between(1, 14), random.below(6));
        let text = generate_rules::term(&mut random, terms, depth, &numbers);
        let (components, minutes) = (random.between(1, 2), random.between(1, 9));
        let bytes = compile(text.as_bytes(), numbers.propositions, components, minutes, 517).unwrap();
        let policy = policy::read(&bytes).unwrap();
        let expression = rule_text::read(text.as_bytes(), numbers.propositions).unwrap().expression();
        let trace = generate::trace(&mut random, &policy, 2);
        let mut buffers = Buffers::sized(&policy);
        generate::sound_knowledge(&mut random, &policy, &trace, &mut buffers);
        let (row, sheet) = expression_sheets(&policy, &expression, &buffers);
        let rows = valuation(&policy, &buffers);
        assert_eq!(rows[rows.len() - minutes..], row, "{text}");
        assert_eq!(verdicts(&policy, &knowledge::time_points(&policy, &buffers), &rows), sheet, "{text}");
        assert_eq!(two_valued(&policy, &trace).pop().unwrap(), expression_in(&expression, &trace), "{text}");
        sheet.iter().for_each(|code| codes[usize::from(*code)] += 1);
    }
    assert!(codes.iter().all(|count| *count > 1_000), "{codes:?}");
}
