//! Lines of a policy, by their kind.

use zankezurt::{kind, Line};

pub const TRUE: Line = Line { kind: kind::TRUE, first: 0, second: 0, lower: 0, upper: 0, rule: 0 };

pub fn proposition(first: u16) -> Line {
    Line { kind: kind::PROPOSITION, first, ..TRUE }
}

/// A not.
pub fn not(first: u16) -> Line {
    Line { kind: kind::NOT, first, ..TRUE }
}

/// An or, an and or an implies.
pub fn join(kind: u16, first: u16, second: u16) -> Line {
    Line { kind, first, second, ..TRUE }
}
