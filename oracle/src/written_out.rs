//! Policies in which lines of the six newer kinds are written out in the six of document 01: request 6 of document 02 has
//! "replacing such a line by its abbreviation gives the same row". The lines here are made without `abbreviation`, so that
//! the two can be compared.

use crate::policy::Formula::*;
use crate::policy::{Formula, Policy, Span, Subformula, Temporal};

/// A policy with some lines of another one written out.
#[derive(Clone, Debug)]
pub struct WrittenOut {
    pub policy: Policy,
    /// The number that each line of the other policy has in this one.
    pub numbers: Vec<usize>,
}

/// Whether the formula is of one of the six newer kinds.
pub fn is_abbreviation(formula: Formula) -> bool {
    written(formula, 0).len() > 1
}

/// The policy with these lines written out. What a line is written out with stands before it, and no line of that is a
/// rule; so rules keep their numbers. There may be more lines than a policy can have.
pub fn written_out(policy: &Policy, is_written_out: impl Fn(usize) -> bool) -> WrittenOut {
    let mut lines: Vec<Subformula> = Vec::new();
    let mut numbers = Vec::new();
    for (number, Subformula { formula, rule }) in policy.subformulas.iter().enumerate() {
        let formula = renumbered(*formula, &numbers);
        let mut formulas = if is_written_out(number) { written(formula, lines.len()) } else { vec![formula] };
        let last = formulas.pop().expect("there is one at least");
        lines.extend(formulas.into_iter().map(|formula| Subformula { formula, rule: false }));
        numbers.push(lines.len());
        lines.push(Subformula { formula: last, rule: *rule });
    }
    WrittenOut { policy: Policy { subformulas: lines, ..policy.clone() }, numbers }
}

/// The lines that the formula abbreviates, the first of which has the number `next`.
fn written(formula: Formula, next: usize) -> Vec<Formula> {
    match formula {
        And(first, second) => vec![Not(first), Not(second), Or(next, next + 1), Not(next + 2)],
        Implies(first, second) => vec![Not(first), Or(next, second)],
        Once(span) => vec![True, Since(true_and(next, span.first, span))],
        Historically(span) => vec![True, Not(span.first), Since(true_and(next, next + 1, span)), Not(next + 2)],
        Eventually(span) => vec![True, Until(true_and(next, span.first, span))],
        Always(span) => vec![True, Not(span.first), Until(true_and(next, next + 1, span)), Not(next + 2)],
        older => vec![older],
    }
}

/// First, which is a line that is true, and second, over the interval.
fn true_and(first: usize, second: usize, Span { lower, upper, .. }: Span) -> Temporal {
    Temporal { first, second, lower, upper }
}

/// The formula with the new numbers of its operands.
fn renumbered(formula: Formula, numbers: &[usize]) -> Formula {
    let temporal = |parts: Temporal| Temporal { first: numbers[parts.first], second: numbers[parts.second], ..parts };
    let spanned = |span: Span| Span { first: numbers[span.first], ..span };
    match formula {
        True | Proposition(_) => formula,
        Not(first) => Not(numbers[first]),
        Or(first, second) => Or(numbers[first], numbers[second]),
        Since(parts) => Since(temporal(parts)),
        Until(parts) => Until(temporal(parts)),
        And(first, second) => And(numbers[first], numbers[second]),
        Implies(first, second) => Implies(numbers[first], numbers[second]),
        Once(span) => Once(spanned(span)),
        Historically(span) => Historically(spanned(span)),
        Eventually(span) => Eventually(spanned(span)),
        Always(span) => Always(spanned(span)),
    }
}
