//! Request 8 of document 02, "Complete shifts leave no blanks": the reach of a line, the call that writes every rule's,
//! and when knowledge is complete.

use crate::knowledge::Buffers;
use crate::monitor::points;
use crate::policy::{self, Formula, Policy};
use crate::refusal::*;
use crate::truth::Truth;

/// "Call a line's reach 0 for true and marks, the larger of its operands' reaches for others, plus upper for until,
/// eventually and always." This is the definition.
pub fn reach(policy: &Policy, line: usize) -> usize {
    reach_over(policy.subformulas[line].formula, |operand| reach(policy, operand))
}

/// The reach of every line, for large policies: a line that many others are built on is worked only once.
pub fn reaches(policy: &Policy) -> Vec<usize> {
    let mut reaches = Vec::new();
    for subformula in &policy.subformulas {
        let reach = reach_over(subformula.formula, |operand| reaches[operand]);
        reaches.push(reach);
    }
    reaches
}

/// The reach of a line with this formula, from its operands' reaches.
fn reach_over(formula: Formula, reach: impl Fn(usize) -> usize) -> usize {
    let larger = |first: usize, second: usize| reach(first).max(reach(second));
    match formula {
        Formula::True | Formula::Proposition(_) => 0,
        Formula::Not(first) => reach(first),
        Formula::Or(first, second) | Formula::And(first, second) | Formula::Implies(first, second) => {
            larger(first, second)
        }
        Formula::Since(parts) => larger(parts.first, parts.second),
        Formula::Until(parts) => larger(parts.first, parts.second) + parts.upper,
        Formula::Once(span) | Formula::Historically(span) => reach(span.first),
        Formula::Eventually(span) | Formula::Always(span) => reach(span.first) + span.upper,
    }
}

/// Writes the reach of each rule at the start of the lent buffer, in the order of the rule numbers, and gives how many
/// rules there are. The policy is checked first, with 1 to 4 and the places of its reader; then 11, as of a writer,
/// where there are more rules than the buffer has room for, and nothing is written. The rest of a longer buffer is kept.
///
/// At most 63 lines look ahead, by at most 1,023 minutes each: no reach is above 64,449, and 16 bits hold it.
pub fn rule_reaches(policy: &[u8], out: &mut [u16]) -> Result<usize, Refusal> {
    let policy = policy::read(policy)?;
    let rules = policy.rules();
    if out.len() < rules.len() {
        return refuse(SHORT_BUFFER, 0);
    }
    let reaches = reaches(&policy);
    for (rule, line) in rules.iter().enumerate() {
        out[rule] = reaches[*line] as u16;
    }
    Ok(rules.len())
}

/// "Every minute is known busy or quiet and every mark is known at every busy minute."
pub fn complete(policy: &Policy, buffers: &Buffers) -> bool {
    complete_with(policy, buffers, |_| true)
}

/// The same, asked only of the propositions that some line names: no reading depends on the others.
pub fn complete_for_lines(policy: &Policy, buffers: &Buffers) -> bool {
    complete_with(policy, buffers, |proposition| is_named(policy, proposition))
}

fn complete_with(policy: &Policy, buffers: &Buffers, asked: impl Fn(usize) -> bool) -> bool {
    points(policy, buffers).into_iter().enumerate().all(|(minute, e)| match e {
        Truth::Unknown => false,
        Truth::False => true,
        Truth::True => (0..policy.propositions).filter(|k| asked(*k)).all(|k| buffers.fact(minute, k).is_some()),
    })
}

/// Whether some line is the proposition.
fn is_named(policy: &Policy, proposition: usize) -> bool {
    policy.subformulas.iter().any(|line| line.formula == Formula::Proposition(proposition))
}
