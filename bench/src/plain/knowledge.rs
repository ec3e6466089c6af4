//! The knowledge: is it sound, does it admit a message, store it, which minutes are time points.

use super::message::{Event, Message};
use super::policy::Policy;

const NONE: u16 = 65535;

/// What neighbouring known places tell of each minute: false, unknown, true as codes.
const OR: [[u8; 3]; 3] = [[0, 1, 0], [1, 1, 1], [0, 1, 2]];

fn next_known(run: &[u16], from: usize) -> usize {
    run[from..].iter().position(|&number| number != NONE).map_or(run.len(), |i| from + i)
}

/// May w stand d places after v?
fn follows(v: u16, w: u16, d: usize) -> bool {
    v <= w && (w - v) as usize <= d
}

fn is_steady(run: &[u16]) -> bool {
    if run[0] != 0 {
        return false;
    }
    let mut p = 0;
    let mut q = next_known(run, 1);
    while q < run.len() {
        if !follows(run[p], run[q], q - p) {
            return false;
        }
        p = q;
        q = next_known(run, q + 1);
    }
    true
}

pub fn is_sound(policy: &Policy, numbers: &[u16], facts: &[u32]) -> bool {
    let limit = 1u64 << policy.propositions;
    numbers.chunks_exact(policy.minutes + 1).all(is_steady)
        && facts.chunks_exact(2).all(|words| words[0] | words[1] == words[0] && (words[0] as u64) < limit)
}

fn may_store(run: &[u16], place: usize, v: u16) -> bool {
    if v == NONE {
        return false;
    }
    if run[place] != NONE {
        return run[place] == v;
    }
    let p = run[..place].iter().rposition(|&number| number != NONE).unwrap_or(0);
    if !follows(run[p], v, place - p) {
        return false;
    }
    let q = next_known(run, place + 1);
    q == run.len() || follows(v, run[q], q - place)
}

pub fn admits(policy: &Policy, numbers: &[u16], facts: &[u32], message: &Message) -> bool {
    let at = message.component * (policy.minutes + 1);
    let run = &numbers[at..at + policy.minutes + 1];
    match message.event {
        Event::Alive { minute, number } => may_store(run, minute, number),
        Event::Observation { minute, number, named, values } => {
            let (known, old) = (facts[2 * minute], facts[2 * minute + 1]);
            known & named & (old ^ values) == 0
                && may_store(run, minute + 1, number)
                && may_store(run, minute, number - 1)
        }
    }
}

pub fn store(policy: &Policy, numbers: &mut [u16], facts: &mut [u32], message: &Message) {
    let at = message.component * (policy.minutes + 1);
    match message.event {
        Event::Alive { minute, number } => numbers[at + minute] = number,
        Event::Observation { minute, number, named, values } => {
            numbers[at + minute + 1] = number;
            numbers[at + minute] = number - 1;
            facts[2 * minute] |= named;
            facts[2 * minute + 1] |= values;
        }
    }
}

/// What each of the d minutes from a number to the next known one is told: quiet where none of them has an observation,
/// busy where all have one. A single minute has one or none.
fn gap_code(v: u16, w: u16, d: usize) -> u8 {
    if v == w {
        2
    } else if d == 1 || (w - v) as usize == d {
        1
    } else {
        0
    }
}

fn join(cells: &mut [u8], code: u8) {
    for cell in cells {
        *cell = OR[*cell as usize][code as usize];
    }
}

/// Joins a row with what one component's run tells, gap by gap.
fn join_run(row: &mut [u8], run: &[u16]) {
    let mut p = 0;
    let mut q = next_known(run, 1);
    while q < run.len() {
        join(&mut row[p..q], gap_code(run[p], run[q], q - p));
        p = q;
        q = next_known(run, q + 1);
    }
    join(&mut row[p..], 0);
}

pub fn time_points(numbers: &[u16], row: &mut [u8]) {
    row.fill(2);
    for run in numbers.chunks_exact(row.len() + 1) {
        join_run(row, run);
    }
}
