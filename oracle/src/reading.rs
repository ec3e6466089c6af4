//! The reading of every subformula: three-valued over knowledge, two-valued in a trace; and the verdicts.

use crate::abbreviation::{abbreviation, Expression, Interval};
use crate::knowledge::{time_points, time_points_of_many, Buffers};
use crate::policy::Policy;
use crate::trace::Trace;
use crate::truth::{all, any, Truth};

/// A verdict and its code on the verdict sheet: blank, kept, broken.
#[derive(Clone, Copy, Debug, PartialEq, Eq)]
pub enum Verdict {
    Unknown = 0,
    Satisfied = 1,
    Violated = 2,
}

impl Verdict {
    pub fn code(self) -> u8 {
        self as u8
    }

    /// "Other codes than 1 and 2 read as blank."
    pub fn from_code(code: u8) -> Verdict {
        match code {
            1 => Verdict::Satisfied,
            2 => Verdict::Violated,
            _ => Verdict::Unknown,
        }
    }
}

/// One truth value for each minute of the policy: e, or a subformula.
type Row = [Truth];

/// The row at any minute: "Before minute 0, e and every line are false. From M on, e and every line are unknown."
fn at(row: &Row, minute: i64) -> Truth {
    if minute < 0 {
        Truth::False
    } else if minute >= row.len() as i64 {
        Truth::Unknown
    } else {
        row[minute as usize]
    }
}

/// How since and until are worked at a minute: from e, the operands' rows and the interval.
type Sum = fn(&Row, &Row, &Row, &Interval, i64) -> Truth;

/// "α since β at t: the or, over j from t − upper to t − lower, of: e(j) and β(j) and, for all s with j < s ≤ t,
/// (not e(s) or α(s))."
fn since(e: &Row, first: &Row, second: &Row, interval: &Interval, t: i64) -> Truth {
    any(t - interval.upper as i64..=t - interval.lower as i64, |j| {
        let between = all(j + 1..=t, |s| at(e, s).not().or(at(first, s)));
        at(e, j).and(at(second, j)).and(between)
    })
}

/// "α until β at t: the or, over j from t + lower to t + upper, of: e(j) and β(j) and, for all s with t ≤ s < j,
/// (not e(s) or α(s))."
fn until(e: &Row, first: &Row, second: &Row, interval: &Interval, t: i64) -> Truth {
    any(t + interval.lower as i64..=t + interval.upper as i64, |j| {
        let between = all(t..=j - 1, |s| at(e, s).not().or(at(first, s)));
        at(e, j).and(at(second, j)).and(between)
    })
}

/// The same as `since`, for large policies.
fn since_walked(e: &Row, first: &Row, second: &Row, interval: &Interval, t: i64) -> Truth {
    walk(e, first, second, interval, |distance| t - distance)
}

/// The same as `until`, for large policies.
fn until_walked(e: &Row, first: &Row, second: &Row, interval: &Interval, t: i64) -> Truth {
    walk(e, first, second, interval, |distance| t + distance)
}

/// Since and until with j going away from t minute by minute. The minutes that "for all s" joins are t up to, and
/// without, j in both; so from one j to the next the joined value only takes in the minute j just left, and it
/// does not have to be summed anew.
fn walk(e: &Row, first: &Row, second: &Row, interval: &Interval, minute: impl Fn(i64) -> i64) -> Truth {
    let mut answer = Truth::False;
    let mut between = Truth::True;
    for distance in 0..=interval.upper {
        let j = minute(distance as i64);
        if distance >= interval.lower {
            answer = answer.or(at(e, j).and(at(second, j)).and(between));
        }
        between = between.and(at(e, j).not().or(at(first, j)));
    }
    answer
}

/// A reading, three-valued or two-valued: what each of the six kinds of document 01 is at a minute of its rows.
trait Reading {
    type Value: Copy;
    /// How many minutes a row has.
    fn length(&self) -> usize;
    fn truth(&self) -> Self::Value;
    fn proposition(&self, k: usize, t: usize) -> Self::Value;
    fn not(&self, first: Self::Value) -> Self::Value;
    fn or(&self, first: Self::Value, second: Self::Value) -> Self::Value;
    fn since(&self, first: &[Self::Value], second: &[Self::Value], interval: &Interval, t: i64) -> Self::Value;
    fn until(&self, first: &[Self::Value], second: &[Self::Value], interval: &Interval, t: i64) -> Self::Value;
}

/// The rows of all subformulas: "a line is worked from earlier runs into its own".
fn rows<R: Reading>(policy: &Policy, reading: &R) -> Vec<Vec<R::Value>> {
    let mut rows = Vec::new();
    for subformula in &policy.subformulas {
        let row = row(&abbreviation(subformula.formula), &rows, reading);
        rows.push(row);
    }
    rows
}

/// The row of an expression. Each expression in it has a row of its own, as if it were a line.
fn row<R: Reading>(expression: &Expression, rows: &[Vec<R::Value>], reading: &R) -> Vec<R::Value> {
    let inner = |expression: &Expression| row(expression, rows, reading);
    let each = |value: &dyn Fn(usize) -> R::Value| (0..reading.length()).map(value).collect();
    match expression {
        Expression::Operand(number) => rows[*number].clone(),
        Expression::True => each(&|_| reading.truth()),
        Expression::Proposition(k) => each(&|t| reading.proposition(*k, t)),
        Expression::Not(first) => {
            let first = inner(first);
            each(&|t| reading.not(first[t]))
        }
        Expression::Or(first, second) => {
            let (first, second) = (inner(first), inner(second));
            each(&|t| reading.or(first[t], second[t]))
        }
        Expression::Since(first, second, interval) => {
            let (first, second) = (inner(first), inner(second));
            each(&|t| reading.since(&first, &second, interval, t as i64))
        }
        Expression::Until(first, second, interval) => {
            let (first, second) = (inner(first), inner(second));
            each(&|t| reading.until(&first, &second, interval, t as i64))
        }
    }
}

/// The three-valued reading over knowledge.
struct ThreeValued<'a> {
    buffers: &'a Buffers,
    e: Vec<Truth>,
    since: Sum,
    until: Sum,
}

impl Reading for ThreeValued<'_> {
    type Value = Truth;

    fn length(&self) -> usize {
        self.e.len()
    }

    fn truth(&self) -> Truth {
        Truth::True
    }

    /// "A mark is its fact, else unknown."
    fn proposition(&self, k: usize, t: usize) -> Truth {
        self.buffers.fact(t, k).map_or(Truth::Unknown, Truth::from_bool)
    }

    fn not(&self, first: Truth) -> Truth {
        first.not()
    }

    fn or(&self, first: Truth, second: Truth) -> Truth {
        first.or(second)
    }

    fn since(&self, first: &Row, second: &Row, interval: &Interval, t: i64) -> Truth {
        (self.since)(&self.e, first, second, interval, t)
    }

    fn until(&self, first: &Row, second: &Row, interval: &Interval, t: i64) -> Truth {
        (self.until)(&self.e, first, second, interval, t)
    }
}

/// The valuation (work sheet) as codes: "each line's minutes stand as one run".
fn codes(rows: &[Vec<Truth>]) -> Vec<u8> {
    rows.concat().iter().map(|truth| truth.code()).collect()
}

/// The three-valued reading over the knowledge, by the sums of document 01. This is the definition.
pub fn valuation(policy: &Policy, buffers: &Buffers) -> Vec<u8> {
    codes(&rows(policy, &ThreeValued { buffers, e: time_points(policy, buffers), since, until }))
}

/// The same as `valuation`, for large policies.
pub fn valuation_of_many(policy: &Policy, buffers: &Buffers) -> Vec<u8> {
    let e = time_points_of_many(policy, buffers);
    codes(&rows(policy, &ThreeValued { buffers, e, since: since_walked, until: until_walked }))
}

/// The verdict sheet over these time points and this valuation.
pub fn verdicts(policy: &Policy, e: &[Truth], valuation: &[u8]) -> Vec<u8> {
    let row = |rule: usize| row_verdicts(e, &valuation[rule * policy.minutes..][..policy.minutes]);
    policy.rules().into_iter().flat_map(row).collect()
}

/// A rule's run of the verdict sheet, from its line's: at a minute known busy, kept where the line reads true and broken
/// where it reads false; blank everywhere else.
fn row_verdicts(e: &[Truth], row: &[u8]) -> Vec<u8> {
    let verdict = |(e, truth): (&Truth, &u8)| {
        let busy = *e == Truth::True;
        if busy && *truth == Truth::True.code() {
            Verdict::Satisfied
        } else if busy && *truth == Truth::False.code() {
            Verdict::Violated
        } else {
            Verdict::Unknown
        }
    };
    e.iter().zip(row).map(verdict).map(Verdict::code).collect()
}

/// The row of an expression without operands over the knowledge, and its run of the verdict sheet. Of the policy only
/// the sizes count.
pub fn expression_sheets(policy: &Policy, expression: &Expression, buffers: &Buffers) -> (Vec<u8>, Vec<u8>) {
    let e = time_points(policy, buffers);
    let codes = codes(&[row(expression, &[], &ThreeValued { buffers, e: e.clone(), since, until })]);
    let verdicts = row_verdicts(&e, &codes);
    (codes, verdicts)
}

/// How many verdicts stand: "it equals the non-blank cells".
pub fn standing(verdicts: &[u8]) -> usize {
    verdicts.iter().filter(|code| **code != Verdict::Unknown.code()).count()
}

/// The two-valued reading in a trace: "the same with e and marks Boolean, from M on too, and no busy minute after its
/// end". One row for each subformula, one value for each minute up to the trace's end; a minute before 0 or after the
/// end is no time point and is not asked for.
pub fn two_valued(policy: &Policy, trace: &Trace) -> Vec<Vec<bool>> {
    rows(policy, &TwoValued { trace })
}

/// The two-valued row of an expression without operands.
pub fn expression_in(expression: &Expression, trace: &Trace) -> Vec<bool> {
    row(expression, &[], &TwoValued { trace })
}

struct TwoValued<'a> {
    trace: &'a Trace,
}

impl Reading for TwoValued<'_> {
    type Value = bool;

    fn length(&self) -> usize {
        self.trace.length()
    }

    fn truth(&self) -> bool {
        true
    }

    fn proposition(&self, k: usize, t: usize) -> bool {
        self.trace.value(t, k)
    }

    fn not(&self, first: bool) -> bool {
        !first
    }

    fn or(&self, first: bool, second: bool) -> bool {
        first || second
    }

    fn since(&self, first: &[bool], second: &[bool], interval: &Interval, t: i64) -> bool {
        let e = |minute: i64| self.trace.time_point(minute);
        (t - interval.upper as i64..=t - interval.lower as i64)
            .any(|j| e(j) && second[j as usize] && (j + 1..=t).all(|s| !e(s) || first[s as usize]))
    }

    fn until(&self, first: &[bool], second: &[bool], interval: &Interval, t: i64) -> bool {
        let e = |minute: i64| self.trace.time_point(minute);
        (t + interval.lower as i64..=t + interval.upper as i64)
            .any(|j| e(j) && second[j as usize] && (t..=j - 1).all(|s| !e(s) || first[s as usize]))
    }
}

/// "The plain two-valued verdict of a rule at a busy minute of that shift is kept where its line so reads true, broken
/// where it reads false; a quiet minute has none." Codes as on the verdict sheet, 0 where there is none.
pub fn two_valued_verdicts(policy: &Policy, trace: &Trace) -> Vec<u8> {
    let rows = two_valued(policy, trace);
    let verdict = |rule: usize, minute: usize| match (trace.time_point(minute as i64), rows[rule][minute]) {
        (false, _) => Verdict::Unknown,
        (true, true) => Verdict::Satisfied,
        (true, false) => Verdict::Violated,
    };
    let row = |rule: usize| (0..policy.minutes).map(move |minute| (rule, minute));
    policy.rules().into_iter().flat_map(row).map(|(rule, minute)| verdict(rule, minute).code()).collect()
}
