//! The three truth values: "Not and or are Kleene's, as 001 Table 1 gives them".

use std::ops::RangeInclusive;
use Truth::{False, True, Unknown};

/// A truth value. Its code is the one of the valuation (work sheet): 0 unknown, 1 true, 2 false.
#[derive(Clone, Copy, Debug, PartialEq, Eq)]
pub enum Truth {
    Unknown = 0,
    True = 1,
    False = 2,
}

impl Truth {
    pub fn code(self) -> u8 {
        self as u8
    }

    pub fn from_bool(value: bool) -> Truth {
        if value {
            True
        } else {
            False
        }
    }

    #[allow(clippy::should_implement_trait)]
    pub fn not(self) -> Truth {
        match self {
            True => False,
            False => True,
            Unknown => Unknown,
        }
    }

    /// The nine answers of Table 1, one by one.
    pub fn or(self, other: Truth) -> Truth {
        match (self, other) {
            (True, True) => True,
            (True, False) => True,
            (True, Unknown) => True,
            (False, True) => True,
            (False, False) => False,
            (False, Unknown) => Unknown,
            (Unknown, True) => True,
            (Unknown, False) => Unknown,
            (Unknown, Unknown) => Unknown,
        }
    }

    /// "a and b is not (not a or not b)".
    pub fn and(self, other: Truth) -> Truth {
        self.not().or(other.not()).not()
    }
}

/// The or over a range of minutes; over no minute it is false.
pub fn any(minutes: RangeInclusive<i64>, value: impl Fn(i64) -> Truth) -> Truth {
    minutes.fold(False, |joined, minute| joined.or(value(minute)))
}

/// "For all" joins by and, and over no minute it is true.
pub fn all(minutes: RangeInclusive<i64>, value: impl Fn(i64) -> Truth) -> Truth {
    minutes.fold(True, |joined, minute| joined.and(value(minute)))
}
