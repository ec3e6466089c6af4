//! Times of the two writers: a policy whose lines have every field that they can have, and the longest message.

use crate::growth::Point;
use crate::workload::LARGEST;
use std::time::Instant;
use zankezurt::{encode_message, encode_policy, kind, Line, Message, MESSAGE_LENGTH, POLICY_LENGTH};

/// How many calls a sample has.
const TIMES: u32 = 1_000;

/// The least seconds of so many samples for a policy of each number of lines.
pub fn policies(sizes: &[usize], samples: usize) -> Vec<Point> {
    sizes.iter().map(|&size| Point { size, time: least(samples, || write_policy(size)) }).collect()
}

/// The least seconds of so many samples for a message under the longest policy.
pub fn message(samples: usize) -> f64 {
    let mut policy = [0; POLICY_LENGTH];
    let length = written_policy(LARGEST.subformulas, &mut policy);
    least(samples, || write_message(&policy[..length]))
}

/// The least seconds of a call, as the mean of each of so many samples.
pub(crate) fn least(samples: usize, call: impl Fn()) -> f64 {
    let sample = || {
        let start = Instant::now();
        (0..TIMES).for_each(|_| call());
        start.elapsed().as_secs_f64() / f64::from(TIMES)
    };
    (0..samples).map(|_| sample()).fold(f64::INFINITY, f64::min)
}

/// A proposition, and then an until over the line before: from the third line on with every field.
pub(crate) fn line(number: usize) -> Line {
    let last = number.wrapping_sub(1) as u16;
    match number {
        0 => Line { kind: kind::PROPOSITION, first: LARGEST.propositions as u16 - 1, rule: 1, ..Line::default() },
        _ => Line { kind: kind::UNTIL, first: last, second: last, lower: 1, upper: 1023, rule: 0 },
    }
}

fn written_policy(size: usize, out: &mut [u8]) -> usize {
    let lines: [Line; 64] = std::array::from_fn(line);
    encode_policy(LARGEST.propositions, LARGEST.components, LARGEST.minutes, &lines[..size], out).expect("a policy")
}

fn write_policy(size: usize) {
    std::hint::black_box(written_policy(std::hint::black_box(size), &mut [0; POLICY_LENGTH]));
}

fn write_message(policy: &[u8]) {
    let message = Message {
        component: LARGEST.components - 1,
        alive: false,
        minute: LARGEST.minutes - 1,
        number: 65535,
        named: u32::MAX,
        values: 0x5A5A_5A5A,
    };
    let length = encode_message(policy, std::hint::black_box(message), &mut [0; MESSAGE_LENGTH]).expect("a message");
    assert_eq!(std::hint::black_box(length), MESSAGE_LENGTH);
}
