//! The sizes of a policy.

use crate::calls::lookup;
use crate::refusal::{Reason, Refusal};

/// The heading of a policy, in bytes; its lines follow.
const HEADING: usize = 5;
/// Bits of a line's map: its fields of one byte, its fields of two, and whether it is a rule.
const SHORT_FIELDS: u8 = 0b0000_0111;
const LONG_FIELDS: u8 = 0b0001_1000;
const RULE: u8 = 0b0010_0000;

/// The sizes of a policy, which give the exact lengths of the buffers. (That of a [`State`](crate::State)'s origin is
/// [`POLICY_LENGTH`](crate::POLICY_LENGTH), under every policy.)
#[derive(Clone, Copy, Debug, PartialEq, Eq, Hash)]
pub struct Sizes {
    /// How many propositions (marks).
    pub propositions: usize,
    /// How many components (stations).
    pub components: usize,
    /// How many minutes.
    pub minutes: usize,
    /// How many subformulas (lines).
    pub subformulas: usize,
    /// How many of them are rules.
    pub rules: usize,
}

impl Sizes {
    /// The largest sizes that a policy can have.
    pub const LARGEST: Sizes = Sizes { propositions: 32, components: 16, minutes: 1024, subformulas: 64, rules: 8 };

    /// The sizes of an encoded policy, or its refusal.
    ///
    /// ```
    /// use zankezurt::{Reason, Sizes};
    ///
    /// let policy = [0x01, 0x01, 0x04, 0x00, 0x03, 0x00, 0x01, 0x01, 0x35, 0x04, 0x01, 0x02, 0x00];
    /// let sizes = Sizes::of(&policy)?;
    /// assert_eq!(sizes, Sizes { propositions: 1, components: 1, minutes: 4, subformulas: 3, rules: 1 });
    /// assert_eq!(sizes.valuation_length(), 12);
    ///
    /// assert_eq!(Sizes::of(&policy[..12]).unwrap_err().reason, Reason::TruncatedPolicy);
    /// # Ok::<(), zankezurt::Refusal>(())
    /// ```
    pub fn of(policy: &[u8]) -> Result<Sizes, Refusal> {
        // No policy's verdict sheet is empty: a look refuses this one by its size exactly where it does not refuse the policy.
        match lookup(policy, &[], 0, 0) {
            Err(refusal) if refusal.reason != Reason::BufferSize => Err(refusal),
            _ => Ok(Sizes::read(policy)),
        }
    }

    /// The sizes that a policy writes, a missing byte as 0.
    fn read(policy: &[u8]) -> Sizes {
        let byte = |at| policy.get(at).map_or(0, |&byte| usize::from(byte));
        Sizes {
            propositions: byte(0),
            components: byte(1),
            minutes: byte(2) | byte(3) << 8,
            subformulas: byte(4),
            rules: rules(policy.get(HEADING..).unwrap_or_default()),
        }
    }

    /// Sequence numbers: components × (minutes + 1).
    pub const fn numbers_length(&self) -> usize {
        self.components * (self.minutes + 1)
    }

    /// Facts: 2 × minutes.
    pub const fn facts_length(&self) -> usize {
        2 * self.minutes
    }

    /// Valuation: subformulas × minutes.
    pub const fn valuation_length(&self) -> usize {
        self.subformulas * self.minutes
    }

    /// Verdicts: rules × minutes.
    pub const fn verdicts_length(&self) -> usize {
        self.rules * self.minutes
    }
}

/// How many of the encoded lines are rules.
fn rules(mut lines: &[u8]) -> usize {
    let mut rules = 0;
    while let Some(&map) = lines.first() {
        rules += usize::from(map & RULE != 0);
        lines = lines.get(line_length(map)..).unwrap_or_default();
    }
    rules
}

/// A line is its map, and the fields whose bits stand.
fn line_length(map: u8) -> usize {
    let [short, long] = [map & SHORT_FIELDS, map & LONG_FIELDS].map(|fields| fields.count_ones() as usize);
    1 + short + 2 * long
}
