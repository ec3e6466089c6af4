//! Every kind by the six of document 01. Request 6 of document 02 says of the six newer ones: "Each means its usual
//! abbreviation from source document 001: once is "true since", eventually is "true until", historically and always are
//! not-once-not and not-eventually-not."

use crate::policy::{Formula, Span, Temporal};

/// A formula of the six kinds of document 01 that may have others in it. Its operands are subformulas of the policy.
#[derive(Clone, Debug, PartialEq, Eq)]
pub enum Expression {
    Operand(usize),
    True,
    Proposition(usize),
    Not(Box<Expression>),
    Or(Box<Expression>, Box<Expression>),
    Since(Box<Expression>, Box<Expression>, Interval),
    Until(Box<Expression>, Box<Expression>, Interval),
}

use Expression::{Not, Operand, Or, Proposition, Since, True, Until};

/// From lower to upper minutes away.
#[derive(Clone, Copy, Debug, PartialEq, Eq)]
pub struct Interval {
    pub lower: usize,
    pub upper: usize,
}

/// What the formula means, by the six kinds of document 01; a formula of one of them means itself.
pub fn abbreviation(formula: Formula) -> Expression {
    match formula {
        Formula::True => True,
        Formula::Proposition(k) => Proposition(k),
        Formula::Not(first) => not(Operand(first)),
        Formula::Or(first, second) => or(Operand(first), Operand(second)),
        Formula::Since(Temporal { first, second, lower, upper }) => {
            since(Operand(first), Operand(second), Interval { lower, upper })
        }
        Formula::Until(Temporal { first, second, lower, upper }) => {
            until(Operand(first), Operand(second), Interval { lower, upper })
        }
        Formula::And(first, second) => and(Operand(first), Operand(second)),
        Formula::Implies(first, second) => or(not(Operand(first)), Operand(second)),
        Formula::Once(span) => once(Operand(span.first), interval(span)),
        Formula::Historically(span) => not(once(not(Operand(span.first)), interval(span))),
        Formula::Eventually(span) => eventually(Operand(span.first), interval(span)),
        Formula::Always(span) => not(eventually(not(Operand(span.first)), interval(span))),
    }
}

fn interval(Span { lower, upper, .. }: Span) -> Interval {
    Interval { lower, upper }
}

pub fn not(first: Expression) -> Expression {
    Not(Box::new(first))
}

pub fn or(first: Expression, second: Expression) -> Expression {
    Or(Box::new(first), Box::new(second))
}

/// "a and b is not (not a or not b)".
pub fn and(first: Expression, second: Expression) -> Expression {
    not(or(not(first), not(second)))
}

pub fn since(first: Expression, second: Expression, interval: Interval) -> Expression {
    Since(Box::new(first), Box::new(second), interval)
}

pub fn until(first: Expression, second: Expression, interval: Interval) -> Expression {
    Until(Box::new(first), Box::new(second), interval)
}

/// "Once is "true since"."
fn once(first: Expression, interval: Interval) -> Expression {
    since(True, first, interval)
}

/// "Eventually is "true until"."
fn eventually(first: Expression, interval: Interval) -> Expression {
    until(True, first, interval)
}
