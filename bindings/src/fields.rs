//! The fields from which policies and messages are written; `docs/FORMAT.md` has their ranges.

/// No policy is longer than so many bytes.
pub const POLICY_LENGTH: usize = 517;
/// No message is longer than so many bytes.
pub const MESSAGE_LENGTH: usize = 14;

/// One line (subformula) of a policy. What its kind has no use for is 0.
#[derive(Clone, Copy, Debug, Default, PartialEq, Eq, Hash)]
#[repr(C)]
pub struct Line {
    /// One of those in [`kind`](mod@crate::kind).
    pub kind: u16,
    /// The proposition, or the first operand: the number of an earlier line.
    pub first: u16,
    /// The second operand, the number of an earlier line.
    pub second: u16,
    /// From how many minutes away a line looks that looks back or on.
    pub lower: u16,
    /// To how many minutes away.
    pub upper: u16,
    /// Whether the line is a rule: 0 no, any other number yes.
    pub rule: u16,
}

/// The fields of a message. What an alive has no use for is 0.
#[derive(Clone, Copy, Debug, Default, PartialEq, Eq, Hash)]
pub struct Message {
    /// The component (station) that sends it.
    pub component: usize,
    /// Whether it is an alive; else it is an observation.
    pub alive: bool,
    /// The minute that it speaks of.
    pub minute: usize,
    /// The sequence number (count).
    pub number: usize,
    /// Bit k: proposition (mark) k is named.
    pub named: u32,
    /// Bit k: the value of proposition k, and 0 where it is not named.
    pub values: u32,
}
