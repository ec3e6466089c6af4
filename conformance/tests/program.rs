//! The printing program as a process: what it prints is what the oracle prints, and what it tells on standard error is
//! what the oracle refuses, byte for byte.

use conformance::inputs::{self, Size};
use conformance::process::{input, printed, root, show, told, Input};
use conformance::rounds::{self, Seen};
use oracle::generate::{self, Limits, Random, LARGEST, MEDIUM, SMALL, TINY};
use oracle::policy::{MOST_BYTES, MOST_MINUTES};
use oracle::program::run;
use std::fs;

/// Runs the program and the oracle, which must print and refuse the same.
fn compare(input: &[u8], seen: &mut Seen) {
    let output = printed(input);
    let expected = run(input);
    let (text, errors) = (show(&output.stdout), show(&output.stderr));
    assert!(text == expected.text, "program\n{text}oracle\n{}input {input:?}", expected.text);
    let refused = told(&expected.refused);
    assert!(errors == refused, "told\n{errors}expected\n{refused}input {input:?}");
    tell(&text, seen);
}

fn tell(text: &str, seen: &mut Seen) {
    seen.one("inputs");
    for line in text.lines() {
        let words: Vec<&str> = line.split(' ').collect();
        match words[..] {
            ["card", "refused", number, "at", _] => seen.one(&format!("policy refused {number}")),
            ["taken", taken, "refused", refused] => {
                seen.add("taken", taken.parse().unwrap());
                seen.add("refused", refused.parse().unwrap());
            }
            [_, _, verdict] => seen.one(verdict),
            _ => panic!("a line of another kind: {line}"),
        }
    }
}

/// What each job does: how many inputs on policies of which limits, and messages in one.
const KINDS: [(Limits, usize, usize); 5] = [
    (TINY, 100, 10),
    (SMALL, 100, 16),
    (MEDIUM, 40, 30),
    (Limits { minutes: MOST_MINUTES, ..SMALL }, 10, 20),
    (LARGEST, 5, 5),
];

#[test]
fn random_inputs() {
    let seen = rounds::run(4_000_000, 6 * KINDS.len(), |number, random, seen| {
        let (limits, inputs, messages) = KINDS[number % KINDS.len()];
        for _ in 0..inputs {
            compare(&generate::program_input(random, &limits, messages), seen);
        }
    });
    seen.at_least(1_000, "inputs");
    for what in ["taken", "refused", "kept", "broken"] {
        seen.at_least(1_000, what);
    }
    for number in 1..=4 {
        seen.at_least(3, &format!("policy refused {number}"));
    }
}

#[test]
fn the_largest_sizes() {
    let seen = rounds::run(4_300_000, 4, |_, random, seen| {
        let policy = inputs::policy(random, Size::Largest);
        assert!(inputs::is_largest(&policy));
        let trace = inputs::few_observations(random, &policy, 6);
        let messages = inputs::sent(random, &policy, &trace, 8);
        compare(&input(&generate::encode_policy(&policy), &messages).bytes, seen);
    });
    seen.at_least(4, "inputs");
    seen.at_least(30, "taken");
}

/// Inputs cut at every place.
#[test]
fn every_beginning_of_an_input() {
    let seen = rounds::run(4_500_000, 8, |_, random, seen| {
        let policy = inputs::policy(random, Size::Small);
        let trace = inputs::trace(random, &policy, 4);
        let whole = input(&generate::encode_policy(&policy), &inputs::sent(random, &policy, &trace, 6));
        for length in 0..=whole.bytes.len() {
            compare(&whole.bytes[..length], seen);
            seen.one(cut(&whole, length));
        }
    });
    seen.at_least(500, "inputs");
    for place in ["length", "policy", "after the policy", "after a length byte", "message", "after a message"] {
        seen.at_least(8, &format!("cut: {place}"));
    }
    seen.at_least(100, "policy refused 1");
}

/// What it is that ends at this place.
fn cut(whole: &Input, place: usize) -> &'static str {
    let starts = |start: &usize| *start == place - 1;
    match place {
        0..2 => "cut: length",
        _ if place < whole.policy_end => "cut: policy",
        _ if place == whole.policy_end => "cut: after the policy",
        _ if whole.ends.contains(&place) => "cut: after a message",
        _ if starts(&whole.policy_end) || whole.ends.iter().any(starts) => "cut: after a length byte",
        _ => "cut: message",
    }
}

/// Policy lengths about the longest and far above it, whatever follows.
#[test]
fn lengths_about_the_longest_policy() {
    let seen = rounds::run(4_700_000, 8, |_, random, seen| {
        for length in [0, 1, 5, 300, MOST_BYTES - 1, MOST_BYTES, MOST_BYTES + 1, 600, 1024, 65535] {
            let policy = generate::encode_policy(&inputs::policy(random, Size::Wide));
            let mut bytes = (length as u16).to_le_bytes().to_vec();
            bytes.extend(policy);
            bytes.extend(inputs::noise(random, 300));
            compare(&bytes, seen);
        }
    });
    seen.at_least(80, "inputs");
    seen.at_least(40, "policy refused 1");
}

/// More bytes than a pipe or any window holds, in long pieces and short ones.
#[test]
fn long_inputs() {
    let seen = rounds::run(4_800_000, 4, |_, random, seen| {
        let policy = inputs::policy(random, Size::Tiny);
        let trace = inputs::trace(random, &policy, 4);
        let mut messages = generate::offers(random, &policy, &trace, 200);
        messages.extend((0..2_000).map(|_| long_noise(random)));
        random.shuffle(&mut messages);
        compare(&input(&generate::encode_policy(&policy), &messages).bytes, seen);
    });
    seen.at_least(4, "inputs");
    seen.at_least(500, "taken");
    seen.at_least(8_000, "refused");
}

/// Bytes of any length that one length byte can tell, long ones most often.
fn long_noise(random: &mut Random) -> Vec<u8> {
    let mut bytes = inputs::noise(random, 255);
    if random.once_in(2) {
        bytes.resize(255, 0);
    }
    bytes
}

#[test]
fn the_demo() {
    for name in ["small-shift", "bakery"] {
        let file = |ending: &str| fs::read(root().join("demo").join(format!("{name}.{ending}"))).unwrap();
        assert_eq!(show(&printed(&file("bin")).stdout), show(&file("txt")), "{name}");
        assert_eq!(run(&file("bin")).text, show(&file("txt")), "{name}");
    }
}
