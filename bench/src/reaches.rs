//! Times of asking for the reaches of rules: under a small policy, and under the largest, each line of which looks ahead over the one before.

use crate::workload::{Shape, LARGEST};
use crate::writing::{least, line};
use std::hint::black_box;
use zankezurt::{encode_policy, rule_reaches, Line, Sizes, POLICY_LENGTH};

/// Mark 0 within the next minute.
const SMALL: [u8; 13] = [0x01, 0x01, 0x04, 0x00, 0x03, 0x00, 0x01, 0x01, 0x35, 0x05, 0x01, 0x01, 0x00];

/// A policy, and the reaches of its rules.
pub struct Asked {
    pub name: &'static str,
    pub policy: Vec<u8>,
    pub reaches: Vec<u16>,
}

impl Asked {
    /// Makes the call, which must answer as it should.
    pub fn ask(&self) {
        let mut out = [0; Sizes::LARGEST.rules];
        let rules = rule_reaches(black_box(&self.policy), &mut out).expect("a policy");
        assert_eq!(black_box(&out[..rules]), self.reaches, "{}", self.name);
    }

    /// The least seconds of so many samples.
    pub fn time(&self, samples: usize) -> f64 {
        least(samples, || self.ask())
    }
}

/// The small policy and the largest.
pub fn all() -> [Asked; 2] {
    let small = Asked { name: "small", policy: SMALL.to_vec(), reaches: vec![1] };
    [small, largest()]
}

/// The last lines are the rules.
fn largest() -> Asked {
    let Shape { propositions, components, minutes, subformulas, rules, .. } = LARGEST;
    let first = subformulas - rules;
    let lines: Vec<Line> =
        (0..subformulas).map(|number| Line { rule: (number >= first).into(), ..line(number) }).collect();
    let mut out = [0; POLICY_LENGTH];
    let length = encode_policy(propositions, components, minutes, &lines, &mut out).expect("a policy");
    let reaches = (first..subformulas).map(|number| 1023 * number as u16).collect();
    Asked { name: "largest", policy: out[..length].to_vec(), reaches }
}
