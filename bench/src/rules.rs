//! Times of rules typed as text: a short one, the largest, and texts that are refused at a place far before the last byte that decides it.

use crate::growth::Point;
use crate::workload::{Shape, LARGEST};
use std::hint::black_box;
use std::time::Instant;
use zankezurt::{compile_rule, Reason, Refusal, POLICY_LENGTH};

/// A sample reads so many bytes, or one text that is longer.
const BYTES: usize = 1_000_000;
/// How many digits the numbers of the refused texts have.
const DIGITS: [usize; 4] = [1_000, 10_000, 100_000, 1_000_000];
/// What the groups of the largest rules are made of.
const LEAF: &str = "m31";
const JOINTS: [&str; 2] = ["since[1000,1023]", "until[1000,1023]"];

/// A text, and where it is refused as too much, if it is.
pub struct Typed {
    pub name: String,
    pub text: String,
    pub refused: Option<usize>,
}

impl Typed {
    fn accepted(name: &str, text: String) -> Typed {
        Typed { name: name.to_string(), text, refused: None }
    }

    /// Makes the call, which must answer as it should.
    pub fn compile(&self) {
        let Shape { propositions, components, minutes, .. } = LARGEST;
        let text = black_box(self.text.as_bytes());
        let answer = compile_rule(text, propositions, components, minutes, &mut [0; POLICY_LENGTH]);
        let refused = self.refused.map(|place| Refusal { reason: Reason::RuleLimit, place });
        assert_eq!(black_box(answer).err(), refused, "{}", self.name);
    }

    /// Seconds of a call, as the mean of a sample's.
    fn sample(&self) -> f64 {
        let calls = (BYTES / self.text.len()).max(1);
        let start = Instant::now();
        (0..calls).for_each(|_| self.compile());
        start.elapsed().as_secs_f64() / calls as f64
    }
}

/// A short rule, and the largest: 64 terms, and 63 where each but the leaves has two.
pub fn accepted() -> Vec<Typed> {
    vec![
        Typed::accepted("short", "(true since[0,2] m0)".to_string()),
        Typed::accepted("64 terms, a run of not", "not ".repeat(63) + LEAF),
        Typed::accepted("63 terms, groups nested to 31", nested(31)),
        Typed::accepted("63 terms, groups nested to 5", even(5)),
    ]
}

/// Propositions whose numbers have ever more digits: refused at the first one.
pub fn long_propositions() -> Vec<Typed> {
    let text = |digits| format!("m{}", "9".repeat(digits));
    long(|digits| Typed { name: format!("m, {digits} digits"), text: text(digits), refused: Some("m".len()) })
}

/// Intervals whose bounds have ever more digits and differ in the last one, the lower being above: refused at the bracket.
pub fn long_intervals() -> Vec<Typed> {
    let before = "(true since";
    let text = |digits| {
        let all_but_last = "1".repeat(digits - 1);
        format!("{before}[{all_but_last}2,{all_but_last}1] m0)")
    };
    long(|digits| Typed { name: format!("[a,b], {digits} digits"), text: text(digits), refused: Some(before.len()) })
}

fn long(typed: impl Fn(usize) -> Typed) -> Vec<Typed> {
    DIGITS.into_iter().map(typed).collect()
}

/// The least seconds of so many samples of each text, taken in turns; sizes are bytes.
pub fn points(texts: &[Typed], samples: usize) -> Vec<Point> {
    let mut points: Vec<Point> =
        texts.iter().map(|typed| Point { size: typed.text.len(), time: f64::INFINITY }).collect();
    for _ in 0..samples {
        for (typed, point) in texts.iter().zip(&mut points) {
            point.time = point.time.min(typed.sample());
        }
    }
    points
}

fn group(first: &str, second: &str, number: usize) -> String {
    format!("({first} {} {second})", JOINTS[number % JOINTS.len()])
}

/// So many groups, each the first term of the next.
fn nested(groups: usize) -> String {
    (0..groups).fold(LEAF.to_string(), |term, number| group(&term, LEAF, number))
}

/// Groups of two groups, to a depth.
fn even(depth: usize) -> String {
    (0..depth).fold(LEAF.to_string(), |term, number| group(&term, &term, number))
}
