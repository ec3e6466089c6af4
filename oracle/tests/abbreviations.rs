//! And, implies, once, historically, eventually and always: a line written out has the same row, and what each of them
//! reads, in words.

use oracle::generate::{self, Limits, Random, MEDIUM, SMALL, TINY};
use oracle::knowledge::{sound, time_points, time_points_of_many, NOT_KNOWN};
use oracle::policy::Formula::*;
use oracle::policy::{Formula, Policy, Span, Subformula, Temporal};
use oracle::reading::{two_valued, two_valued_verdicts, valuation, valuation_of_many, verdicts};
use oracle::trace::Trace;
use oracle::truth::Truth;
use oracle::write::Line;
use oracle::written_out::{is_abbreviation, written_out, WrittenOut};
use oracle::Buffers;

/// A policy's lines of the newer kinds.
fn abbreviations(policy: &Policy) -> Vec<usize> {
    let lines = 0..policy.subformulas.len();
    lines.filter(|line| is_abbreviation(policy.subformulas[*line].formula)).collect()
}

/// The policy with each of these lines alone written out, and with all of them.
fn each_written_out(policy: &Policy, lines: &[usize]) -> Vec<WrittenOut> {
    let each = lines.iter().map(|line| written_out(policy, |number| number == *line));
    each.chain([written_out(policy, |_| true)]).collect()
}

/// Over this knowledge and in this trace every line has its own row in the policy that is written out, and the verdicts
/// are the same.
fn compare(policy: &Policy, other: &WrittenOut, buffers: &Buffers, trace: &Trace) {
    let WrittenOut { policy: longer, numbers } = other;
    let at = |number: usize| number * policy.minutes..(number + 1) * policy.minutes;
    let (sheet, longer_sheet) = (valuation_of_many(policy, buffers), valuation_of_many(longer, buffers));
    let (rows, longer_rows) = (two_valued(policy, trace), two_valued(longer, trace));
    for (line, number) in numbers.iter().enumerate() {
        assert_eq!(sheet[at(line)], longer_sheet[at(*number)], "line {line} of {policy:?} over {buffers:?}");
        assert_eq!(rows[line], longer_rows[*number], "line {line} of {policy:?} in {trace:?}");
    }
    let e = time_points_of_many(policy, buffers);
    assert_eq!(verdicts(policy, &e, &sheet), verdicts(longer, &e, &longer_sheet));
    assert_eq!(two_valued_verdicts(policy, trace), two_valued_verdicts(longer, trace));
    // By the plain sums too, where they are quick.
    if policy.minutes <= SMALL.minutes {
        assert_eq!(valuation(policy, buffers), sheet);
        assert_eq!(valuation(longer, buffers), longer_sheet);
    }
}

#[test]
fn a_line_written_out_has_the_same_row() {
    let mut random = Random::new(41);
    let mut seen = [0; 12];
    let long = Limits { minutes: 300, subformulas: 12, bound: 320, ..MEDIUM };
    for (limits, rounds) in [(TINY, 600), (SMALL, 400), (MEDIUM, 20), (long, 6)] {
        for _ in 0..rounds {
            let policy = generate::policy(&mut random, &limits);
            let past = random.below(4);
            let trace = generate::trace(&mut random, &policy, past);
            let mut buffers = Buffers::sized(&policy);
            generate::sound_knowledge(&mut random, &policy, &trace, &mut buffers);
            let lines = abbreviations(&policy);
            for other in each_written_out(&policy, &lines) {
                compare(&policy, &other, &buffers, &trace);
            }
            lines.iter().for_each(|line| seen[usize::from(Line::from(&policy.subformulas[*line]).kind)] += 1);
        }
    }
    assert!(seen[6..].iter().all(|times| *times > 200), "{seen:?}");
}

/// Lines 0 and 1 are propositions, line 2 is written out and line 3, the rule, is not line 2.
#[test]
fn what_a_line_is_written_out_with() {
    let span = Span { first: 1, lower: 2, upper: 3 };
    let parts = |first, second| Temporal { first, second, lower: 2, upper: 3 };
    let cases = [
        (Or(0, 1), vec![Or(0, 1)]),
        (And(0, 1), vec![Not(0), Not(1), Or(2, 3), Not(4)]),
        (Implies(0, 1), vec![Not(0), Or(2, 1)]),
        (Once(span), vec![True, Since(parts(2, 1))]),
        (Historically(span), vec![True, Not(1), Since(parts(2, 3)), Not(4)]),
        (Eventually(span), vec![True, Until(parts(2, 1))]),
        (Always(span), vec![True, Not(1), Until(parts(2, 3)), Not(4)]),
    ];
    let policy = |formulas: &[Formula]| {
        let rule = formulas.len() - 1;
        let lines =
            formulas.iter().enumerate().map(|(line, formula)| Subformula { formula: *formula, rule: line == rule });
        Policy { propositions: 2, components: 1, minutes: 4, subformulas: lines.collect() }
    };
    for (formula, written) in cases {
        let WrittenOut { policy: longer, numbers } =
            written_out(&policy(&[Proposition(0), Proposition(1), formula, Not(2)]), |line| line == 2);
        let last = 1 + written.len();
        let expected = [&[Proposition(0), Proposition(1)], &written[..], &[Not(last)]].concat();
        assert_eq!((longer, numbers), (policy(&expected), vec![0, 1, last, last + 1]), "{formula:?}");
        assert_eq!(is_abbreviation(formula), written.len() > 1);
    }
}

/// The truth value that a letter stands for.
fn truth(letter: char) -> Truth {
    match letter {
        'T' => Truth::True,
        'F' => Truth::False,
        _ => Truth::Unknown,
    }
}

fn letter(code: &u8) -> char {
    ['?', 'T', 'F'][usize::from(*code)]
}

/// Knowledge of these minutes: busy (T), quiet (F) or open (?), and of each proposition at each minute. Component 0 is
/// known at every place and observes in the busy minutes alone. Component 1 observes only in the open minutes or in a
/// busy one beside them, and it is not told in which.
fn knowledge(policy: &Policy, minutes: &str, propositions: &[&str]) -> Buffers {
    let mut buffers = Buffers::sized(policy);
    buffers.forget(policy);
    let (first, second) = buffers.numbers.split_at_mut(policy.minutes + 1);
    for (minute, letter) in minutes.chars().enumerate() {
        first[minute + 1] = first[minute] + u16::from(letter == 'T');
    }
    let open = minutes.find('?').unwrap_or(minutes.len());
    let closed = minutes.rfind('?').map_or(minutes.len(), |last| last + 1);
    // With the busy minute right before them, and with the one right after them.
    let open = if minutes[..open].ends_with('T') { open - 1 } else { open };
    let closed = if minutes[closed..].starts_with('T') { closed + 1 } else { closed };
    second[..=open].fill(0);
    second[open + 1..].fill(NOT_KNOWN);
    if closed < minutes.len() {
        second[closed..].fill(1);
    }
    for (k, values) in propositions.iter().enumerate() {
        for (minute, value) in values.chars().map(truth).enumerate() {
            buffers.facts[2 * minute] |= u32::from(value != Truth::Unknown) << k;
            buffers.facts[2 * minute + 1] |= u32::from(value == Truth::True) << k;
        }
    }
    assert!(sound(policy, &buffers));
    assert_eq!(time_points(policy, &buffers), minutes.chars().map(truth).collect::<Vec<_>>(), "{minutes}");
    buffers
}

/// The row of the formula and its verdicts, over this knowledge; its operands are the propositions. Both are the same
/// where its line is written out.
fn sheets(formula: Formula, minutes: &str, propositions: &[&str]) -> (String, Vec<u8>) {
    let lines = (0..propositions.len()).map(|k| Subformula { formula: Proposition(k), rule: false });
    let subformulas = lines.chain([Subformula { formula, rule: true }]).collect();
    let policy = Policy { propositions: propositions.len(), components: 2, minutes: minutes.len(), subformulas };
    let buffers = knowledge(&policy, minutes, propositions);
    let sheets = |policy: &Policy| {
        let sheet = valuation(policy, &buffers);
        let row = sheet.chunks(minutes.len()).last().unwrap().iter().map(letter).collect::<String>();
        (row, verdicts(policy, &time_points(policy, &buffers), &sheet))
    };
    assert_eq!(sheets(&policy), sheets(&written_out(&policy, |_| true).policy));
    sheets(&policy)
}

fn row(formula: Formula, minutes: &str, propositions: &[&str]) -> String {
    sheets(formula, minutes, propositions).0
}

/// The operand is proposition 0.
fn span(lower: usize, upper: usize) -> Span {
    Span { first: 0, lower, upper }
}

/// "a and b is not (not a or not b)", by 001's Table 1; implies is not a or b.
#[test]
fn the_nine_answers_of_and_and_of_implies() {
    let (first, second) = ("TTTFFF???", "TF?TF?TF?");
    let minutes = "TTTTTTTTT";
    assert_eq!(row(And(0, 1), minutes, &[first, second]), "TF?FFF?F?");
    assert_eq!(row(And(1, 0), minutes, &[first, second]), "TF?FFF?F?");
    assert_eq!(row(Implies(0, 1), minutes, &[first, second]), "TF?TTTT??");
    // Implies is not symmetric.
    assert_eq!(row(Implies(1, 0), minutes, &[first, second]), "TTTFT??T?");
    // Kleene's reading decides also where all shifts agree.
    assert_eq!(row(And(0, 0), minutes, &[first]), "TTTFFF???");
    assert_eq!(row(Implies(0, 0), minutes, &[first]), "TTTTTT???");
}

/// They ask only for their own minute, whether it is busy, quiet or open.
#[test]
fn and_and_implies_at_any_minute() {
    let (minutes, propositions) = ("TFF?T", ["TTFTT", "TFFTF"]);
    assert_eq!(sheets(And(0, 1), minutes, &propositions), ("TFFTF".into(), vec![1, 0, 0, 0, 2]));
    assert_eq!(sheets(Implies(0, 1), minutes, &propositions), ("TFTTF".into(), vec![1, 0, 0, 0, 2]));
}

/// One minute is unlike the others; those from which it is 1 to 3 minutes away, and no others, read it.
#[test]
fn both_ends_of_the_interval() {
    let minutes = "TTTTTTTTT";
    assert_eq!(row(Once(span(1, 3)), minutes, &["FFTFFFFFF"]), "FFFTTTFFF");
    assert_eq!(row(Historically(span(1, 3)), minutes, &["TTFTTTTTT"]), "TTTFFFTTT");
    // From the last minutes a part of the interval is past the end.
    assert_eq!(row(Eventually(span(1, 3)), minutes, &["FFFFTFFFF"]), "FTTTFF???");
    assert_eq!(row(Always(span(1, 3)), minutes, &["TTTTFTTTT"]), "TFFFTT???");
}

#[test]
fn an_interval_of_the_minute_itself() {
    let (minutes, proposition) = ("TTTT", &["TF?T"]);
    for formula in [Once(span(0, 0)), Historically(span(0, 0)), Eventually(span(0, 0)), Always(span(0, 0))] {
        assert_eq!(row(formula, minutes, proposition), "TF?T", "{formula:?}");
    }
}

/// There is no minute in the interval: historically asks nothing and is true, once finds nothing and is false.
#[test]
fn an_interval_before_minute_0() {
    let minutes = "TTTT";
    for proposition in ["TTTT", "FFFF", "????"] {
        assert_eq!(row(Historically(span(5, 9)), minutes, &[proposition]), "TTTT");
        assert_eq!(row(Once(span(5, 9)), minutes, &[proposition]), "FFFF");
    }
}

/// Nothing is asked of the minutes before 0, and the others decide.
#[test]
fn an_interval_that_reaches_before_minute_0() {
    let minutes = "TTTT";
    assert_eq!(row(Historically(span(0, 9)), minutes, &["TTTT"]), "TTTT");
    assert_eq!(row(Historically(span(0, 9)), minutes, &["TTFT"]), "TTFF");
    assert_eq!(row(Historically(span(0, 9)), minutes, &["TT?T"]), "TT??");
    assert_eq!(row(Once(span(0, 9)), minutes, &["FFFF"]), "FFFF");
    assert_eq!(row(Once(span(0, 9)), minutes, &["FFTF"]), "FFTT");
    assert_eq!(row(Once(span(0, 9)), minutes, &["FF?F"]), "FF??");
}

/// What is past the end is unknown: it makes neither always true nor eventually false.
#[test]
fn an_interval_past_the_end() {
    let minutes = "TTTT";
    assert_eq!(row(Always(span(0, 1)), minutes, &["TTTT"]), "TTT?");
    assert_eq!(row(Always(span(0, 9)), minutes, &["TTTT"]), "????");
    assert_eq!(row(Always(span(0, 9)), minutes, &["TTFT"]), "FFF?");
    assert_eq!(row(Eventually(span(0, 1)), minutes, &["FFFF"]), "FFF?");
    assert_eq!(row(Eventually(span(0, 9)), minutes, &["FFFF"]), "????");
    assert_eq!(row(Eventually(span(0, 9)), minutes, &["FFTF"]), "TTT?");
    for proposition in ["TTTT", "FFFF", "????"] {
        assert_eq!(row(Always(span(5, 9)), minutes, &[proposition]), "????");
        assert_eq!(row(Eventually(span(5, 9)), minutes, &[proposition]), "????");
    }
}

/// At a quiet minute nothing is asked and nothing is found, whatever its facts are.
#[test]
fn quiet_minutes_are_passed_over() {
    let minutes = "TFFT";
    for quiet in ["TT", "FF", "??", "TF"] {
        let first = format!("F{quiet}T");
        assert_eq!(row(Once(span(0, 2)), minutes, &[&first]), "FFFT");
        assert_eq!(row(Historically(span(0, 2)), minutes, &[&first]), "FFFT");
        let first = format!("T{quiet}F");
        assert_eq!(row(Once(span(1, 2)), minutes, &[&first]), "FTTF");
        assert_eq!(row(Historically(span(1, 2)), minutes, &[&first]), "TTTT");
        let first = format!("F{quiet}T");
        assert_eq!(row(Eventually(span(0, 2)), minutes, &[&first]), "FTTT");
        assert_eq!(row(Always(span(0, 1)), minutes, &[&first]), "FTT?");
    }
}

/// At an open minute what is asked for may fail, and what is found may not count; what holds there cannot fail, and what
/// does not hold there cannot be found.
#[test]
fn open_minutes_leave_it_unknown() {
    let minutes = "?TTT";
    assert_eq!(row(Historically(span(1, 1)), minutes, &["FTTT"]), "T?TT");
    assert_eq!(row(Historically(span(1, 1)), minutes, &["?TTT"]), "T?TT");
    assert_eq!(row(Historically(span(1, 1)), minutes, &["TTTT"]), "TTTT");
    assert_eq!(row(Once(span(1, 1)), minutes, &["TFFF"]), "F?FF");
    assert_eq!(row(Once(span(1, 1)), minutes, &["?FFF"]), "F?FF");
    assert_eq!(row(Once(span(1, 1)), minutes, &["FFFF"]), "FFFF");
    let minutes = "TT?T";
    assert_eq!(row(Always(span(1, 1)), minutes, &["TTFT"]), "T?T?");
    assert_eq!(row(Always(span(1, 1)), minutes, &["TT?T"]), "T?T?");
    assert_eq!(row(Always(span(1, 1)), minutes, &["TTTT"]), "TTT?");
    assert_eq!(row(Eventually(span(1, 1)), minutes, &["FFTF"]), "F?F?");
    assert_eq!(row(Eventually(span(1, 1)), minutes, &["FF?F"]), "F?F?");
    assert_eq!(row(Eventually(span(1, 1)), minutes, &["FFFF"]), "FFF?");
}

/// Past an open minute a surer one decides.
#[test]
fn a_busy_minute_decides_beside_an_open_one() {
    let minutes = "?TTT";
    assert_eq!(row(Historically(span(0, 3)), minutes, &["FTFT"]), "??FF");
    assert_eq!(row(Once(span(0, 3)), minutes, &["TFTF"]), "??TT");
    let minutes = "TT?T";
    assert_eq!(row(Always(span(0, 3)), minutes, &["TFFT"]), "FF??");
    assert_eq!(row(Eventually(span(0, 3)), minutes, &["FTTF"]), "TT??");
}

/// A quiet or open minute has a value on the work sheet, and its verdict is blank.
#[test]
fn a_value_where_the_verdict_is_blank() {
    let broken = |formula| sheets(formula, "TFFT", &["FFFF"]);
    assert_eq!(sheets(Once(span(0, 3)), "TFFT", &["TFFF"]), ("TTTT".into(), vec![1, 0, 0, 1]));
    assert_eq!(broken(Once(span(0, 3))), ("FFFF".into(), vec![2, 0, 0, 2]));
    assert_eq!(broken(Historically(span(0, 3))), ("FFFF".into(), vec![2, 0, 0, 2]));
    assert_eq!(sheets(Eventually(span(0, 1)), "TFFT", &["TFFT"]), ("TFTT".into(), vec![1, 0, 0, 1]));
    assert_eq!(broken(Always(span(0, 3))), ("FFFF".into(), vec![2, 0, 0, 2]));
    assert_eq!(sheets(Once(span(0, 3)), "T?T", &["TFF"]), ("TTT".into(), vec![1, 0, 1]));
}

/// Two-valued, a shift past the policy's last minute M is read too, and after its end no minute is busy.
#[test]
fn a_trace_past_the_end() {
    let verdicts = |formula, past: &[(bool, bool)]| {
        let lines = [(Proposition(0), false), (formula, true)].map(|(formula, rule)| Subformula { formula, rule });
        let policy = Policy { propositions: 1, components: 1, minutes: 2, subformulas: lines.to_vec() };
        // At both minutes of the policy the proposition holds.
        let minutes = [&[(true, true); 2], past].concat();
        let observed = vec![minutes.iter().map(|(busy, _)| *busy).collect()];
        let values = minutes.iter().map(|(_, value)| u32::from(*value)).collect();
        two_valued_verdicts(&policy, &Trace { observed, values })
    };
    assert_eq!(verdicts(Always(span(0, 2)), &[]), [1, 1]);
    assert_eq!(verdicts(Always(span(0, 2)), &[(true, true), (true, true)]), [1, 1]);
    assert_eq!(verdicts(Always(span(0, 2)), &[(true, true), (true, false)]), [1, 2]);
    assert_eq!(verdicts(Always(span(0, 2)), &[(true, true), (false, false)]), [1, 1]);
    assert_eq!(verdicts(Eventually(span(2, 2)), &[]), [2, 2]);
    assert_eq!(verdicts(Eventually(span(2, 2)), &[(false, true), (true, true)]), [2, 1]);
}
