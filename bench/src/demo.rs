//! The demo's rules, with the abbreviations and without them: "rule authors build these from not and since and run out of lines".

use oracle::policy::{self, Formula, Policy, Subformula, Temporal};

const INPUT: &[u8] = include_bytes!("../../demo/bakery.bin");

/// The demo's policy: it has implies, once and eventually.
pub fn short() -> Policy {
    let length = usize::from(u16::from_le_bytes([INPUT[0], INPUT[1]]));
    policy::read(&INPUT[2..][..length]).expect("the demo's policy")
}

/// The same rules with not, or, since and until alone.
pub fn long() -> Policy {
    let near = |second, upper| Temporal { first: 0, second, lower: 0, upper };
    let lines = [
        (Formula::True, false),
        (Formula::Proposition(0), false),
        (Formula::Proposition(1), false),
        (Formula::Proposition(2), false),
        (Formula::Proposition(3), false),
        (Formula::Since(near(1, 240)), false),
        (Formula::Not(2), false),
        (Formula::Or(6, 5), true),
        (Formula::Until(near(4, 90)), false),
        (Formula::Not(3), false),
        (Formula::Or(9, 8), true),
    ];
    Policy { subformulas: lines.map(|(formula, rule)| Subformula { formula, rule }).to_vec(), ..short() }
}
