//! The state in lent memory: the list of its cells, in the order of the calls' arguments.

/// The state of a shift, in memory that the caller lends: what is known, both sheets, and the policy that it was opened under.
///
/// [`Sizes`](crate::Sizes) gives the exact lengths. [`open`](crate::open) fills all of it, whatever it held. From then on it belongs to
/// its policy: lent together with another one it is refused ([`OtherPolicy`](crate::Reason::OtherPolicy)), until it is opened anew.
#[derive(Debug, PartialEq, Eq)]
pub struct State<'a> {
    /// Sequence numbers (counts), a run for each component.
    pub numbers: &'a mut [u16],
    /// Facts: for each minute the propositions that are known, and their values.
    pub facts: &'a mut [u32],
    /// Valuation (work sheet): a row for each subformula.
    pub valuation: &'a mut [u8],
    /// Verdicts (verdict sheet): a row for each rule. [`lookup`](crate::lookup) reads it.
    pub verdicts: &'a mut [u8],
    /// The policy that it was opened under, and then zeros: [`POLICY_LENGTH`](crate::POLICY_LENGTH) bytes.
    pub origin: &'a mut [u8],
    /// That policy's length.
    pub extent: &'a mut u16,
}
