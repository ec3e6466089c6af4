//! Instructions of one take, of one rule that is compiled, or of asking for reaches once, counted by callgrind: two of them less one, so that
//! nothing else is in the count.

use crate::contender::Contender;
use crate::reaches::Asked;
use crate::rules::Typed;
use crate::workload::{Kinds, Record};
use std::process::Command;

/// The instructions of one take with a record and lines of some kinds, or why they can't be counted.
pub fn of_a_take(contender: Contender, record: Record, kinds: Kinds) -> Result<u64, String> {
    of_one("take", contender.name(), &[record.name(), kinds.name()])
}

/// The instructions of one call with a rule's text, or why they can't be counted.
pub fn of_a_rule(typed: &Typed) -> Result<u64, String> {
    of_one("rule", &typed.name, &[])
}

/// The instructions of one call that asks for the reaches under a policy, or why they can't be counted.
pub fn of_reaches(asked: &Asked) -> Result<u64, String> {
    of_one("reach", asked.name, &[])
}

fn of_one(what: &str, name: &str, rest: &[&str]) -> Result<u64, String> {
    Ok(of_many(what, name, 2, rest)? - of_many(what, name, 1, rest)?)
}

fn of_many(what: &str, name: &str, count: usize, rest: &[&str]) -> Result<u64, String> {
    let program = std::env::current_exe().map_err(|error| error.to_string())?;
    let run = Command::new("valgrind")
        .args(["--tool=callgrind", "--callgrind-out-file=/dev/null"])
        .arg(program)
        .args([what, name, &count.to_string()])
        .args(rest)
        .output()
        .map_err(|error| format!("valgrind: {error}"))?;
    let said = String::from_utf8_lossy(&run.stderr).into_owned();
    let counted = said.lines().find_map(|line| line.split("Collected : ").nth(1));
    counted.and_then(|number| number.trim().parse().ok()).ok_or(said)
}
