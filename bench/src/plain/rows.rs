//! The two sheets: each row in one pass over the minutes.

use super::policy::{Formula, Policy, Span};

/// The code of `not x`.
fn not(x: u8) -> u8 {
    if x == 0 {
        0
    } else {
        3 - x
    }
}

/// The code of `x or y`.
fn or(x: u8, y: u8) -> u8 {
    if (x == 1) | (y == 1) {
        1
    } else if (x == 2) & (y == 2) {
        2
    } else {
        0
    }
}

/// The code of `x and y`.
fn and(x: u8, y: u8) -> u8 {
    if (x == 2) | (y == 2) {
        2
    } else if (x == 1) & (y == 1) {
        1
    } else {
        0
    }
}

/// The code of `x implies y`.
fn implies(x: u8, y: u8) -> u8 {
    if (x == 2) | (y == 1) {
        1
    } else if (x == 1) & (y == 2) {
        2
    } else {
        0
    }
}

/// The row of two operands that are joined minute by minute.
fn join_row(left: &[u8], right: &[u8], join: impl Fn(u8, u8) -> u8, row: &mut [u8]) {
    for ((cell, &x), &y) in row.iter_mut().zip(left).zip(right) {
        *cell = join(x, y);
    }
}

/// The rank (false 0, unknown 1, true 2) of `x and y`.
fn both(x: u8, y: u8) -> u8 {
    if (x == 2) | (y == 2) {
        0
    } else if (x == 1) & (y == 1) {
        2
    } else {
        1
    }
}

/// The rank of `x and not y`.
fn apart(x: u8, y: u8) -> u8 {
    if (x == 2) | (y == 1) {
        0
    } else if (x == 1) & (y == 2) {
        2
    } else {
        1
    }
}

/// The nearest minute at which something is surely so, and at which it may be so.
#[derive(Clone, Copy)]
struct Nearest {
    sure: usize,
    may: usize,
}

impl Nearest {
    fn note(&mut self, here: usize, rank: u8) {
        if rank >= 2 {
            self.sure = here;
        }
        if rank >= 1 {
            self.may = here;
        }
    }
}

fn code(sure: bool, may: bool) -> u8 {
    if sure {
        1
    } else if may {
        0
    } else {
        2
    }
}

/// The code of a value whose contrary is surely so, or may be so.
fn contrary(sure: bool, may: bool) -> u8 {
    code(!may, !sure)
}

/// The ranks of all minutes, by `rank` of e and of the operand.
fn ranks(points: &[u8], operand: &[u8], rank: impl Fn(u8, u8) -> u8) -> [u8; 1024] {
    let mut ranks = [0; 1024];
    for ((cell, &x), &y) in ranks.iter_mut().zip(points).zip(operand) {
        *cell = rank(x, y);
    }
    ranks
}

fn since_row(points: &[u8], left: &[u8], right: &[u8], lower: usize, upper: usize, row: &mut [u8]) {
    let (begin_at, break_at) = (ranks(points, right, both), ranks(points, left, apart));
    let mut begins = Nearest { sure: 0, may: 0 };
    let mut breaks = Nearest { sure: 0, may: 0 };
    for t in 0..row.len() {
        if let Some(j) = t.checked_sub(lower) {
            begins.note(j + 1, begin_at[j]);
        }
        breaks.note(t + 1, break_at[t]);
        let start = t.saturating_sub(upper);
        let reaches = |begin, stop| begin > start && begin >= stop;
        row[t] = code(reaches(begins.sure, breaks.may), reaches(begins.may, breaks.sure));
    }
}

fn until_row(points: &[u8], left: &[u8], right: &[u8], lower: usize, upper: usize, row: &mut [u8]) {
    let (begin_at, break_at) = (ranks(points, right, both), ranks(points, left, apart));
    let minutes = row.len();
    let mut begins = Nearest { sure: usize::MAX, may: minutes + lower };
    let mut breaks = Nearest { sure: usize::MAX, may: minutes };
    for t in (0..minutes).rev() {
        let j = t + lower;
        let rank = if j < minutes { begin_at[j] } else { 1 };
        begins.note(j, rank);
        breaks.note(t, break_at[t]);
        let reaches = |begin, stop| begin <= t + upper && begin <= stop;
        row[t] = code(reaches(begins.sure, breaks.may), reaches(begins.may, breaks.sure));
    }
}

/// A once, by the ranks of its operand at time points; a historically, by those of not the operand, is the contrary.
fn once_row(begin_at: &[u8; 1024], span: Span, code: impl Fn(bool, bool) -> u8, row: &mut [u8]) {
    let (lower, upper) = (span.lower as usize, span.upper as usize);
    let mut begins = Nearest { sure: 0, may: 0 };
    for (t, cell) in row.iter_mut().enumerate() {
        if let Some(j) = t.checked_sub(lower) {
            begins.note(j + 1, begin_at[j]);
        }
        let start = t.saturating_sub(upper);
        *cell = code(begins.sure > start, begins.may > start);
    }
}

/// An eventually, by the ranks of its operand at time points; an always, by those of not the operand, is the contrary.
fn eventually_row(begin_at: &[u8; 1024], span: Span, code: impl Fn(bool, bool) -> u8, row: &mut [u8]) {
    let (lower, upper) = (span.lower as usize, span.upper as usize);
    let minutes = row.len();
    let mut begins = Nearest { sure: usize::MAX, may: minutes + lower };
    for (t, cell) in row.iter_mut().enumerate().rev() {
        let j = t + lower;
        let rank = if j < minutes { begin_at[j] } else { 1 };
        begins.note(j, rank);
        let end = t + upper;
        *cell = code(begins.sure <= end, begins.may <= end);
    }
}

fn fact_code(known: u32, values: u32, proposition: u8) -> u8 {
    if known >> proposition & 1 == 0 {
        0
    } else if values >> proposition & 1 == 0 {
        2
    } else {
        1
    }
}

/// Works every subformula's row from earlier ones.
pub fn evaluate(policy: &Policy, points: &[u8], facts: &[u32], valuation: &mut [u8]) {
    let minutes = policy.minutes;
    for (i, line) in policy.subformulas().iter().enumerate() {
        let (earlier, rest) = valuation.split_at_mut(i * minutes);
        let row = &mut rest[..minutes];
        let run = |i: u8| &earlier[i as usize * minutes..][..minutes];
        match line.formula {
            Formula::True => row.fill(1),
            Formula::Proposition(proposition) => {
                for (cell, words) in row.iter_mut().zip(facts.chunks_exact(2)) {
                    *cell = fact_code(words[0], words[1], proposition);
                }
            }
            Formula::Not(i) => {
                for (cell, &x) in row.iter_mut().zip(run(i)) {
                    *cell = not(x);
                }
            }
            Formula::Or(i, j) => join_row(run(i), run(j), or, row),
            Formula::Since { left, right, lower, upper } => {
                since_row(points, run(left), run(right), lower as usize, upper as usize, row)
            }
            Formula::Until { left, right, lower, upper } => {
                until_row(points, run(left), run(right), lower as usize, upper as usize, row)
            }
            Formula::And(i, j) => join_row(run(i), run(j), and, row),
            Formula::Implies(i, j) => join_row(run(i), run(j), implies, row),
            Formula::Once(span) => once_row(&ranks(points, run(span.operand), both), span, code, row),
            Formula::Historically(span) => once_row(&ranks(points, run(span.operand), apart), span, contrary, row),
            Formula::Eventually(span) => eventually_row(&ranks(points, run(span.operand), both), span, code, row),
            Formula::Always(span) => eventually_row(&ranks(points, run(span.operand), apart), span, contrary, row),
        }
    }
}

/// Writes the verdicts of every rule; gives how many stand.
pub fn conclude(policy: &Policy, points: &[u8], valuation: &[u8], verdicts: &mut [u8]) -> usize {
    let minutes = policy.minutes;
    let rows = valuation.chunks_exact(minutes).zip(policy.subformulas());
    let rules = rows.filter(|(_, line)| line.rule).map(|(row, _)| row);
    let mut total = 0;
    for (row, cells) in rules.zip(verdicts.chunks_exact_mut(minutes)) {
        for ((cell, &value), &point) in cells.iter_mut().zip(row).zip(points) {
            *cell = if point == 1 { value } else { 0 };
            total += (*cell != 0) as usize;
        }
    }
    total
}
