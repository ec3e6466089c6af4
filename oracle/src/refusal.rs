//! "Reasons to turn a call away": a refusal is a number and a place.

/// Cut card: the policy ends early, or bytes follow its last subformula.
pub const TRUNCATED_POLICY: u8 = 1;
/// Bad heading: a heading number out of range.
pub const BAD_HEADING: u8 = 2;
/// Bad line: any rule of a subformula broken.
pub const BAD_SUBFORMULA: u8 = 3;
/// Rule count: no rule, or more than eight.
pub const RULE_COUNT: u8 = 4;
/// Wrong tray: a buffer is not of its exact size.
pub const BUFFER_SIZE: u8 = 5;
/// Spoiled record: the knowledge is not sound.
pub const CORRUPT_KNOWLEDGE: u8 = 6;
/// Cut slip: the message ends early, or bytes follow.
pub const TRUNCATED_MESSAGE: u8 = 7;
/// Bad slip: any rule of a message, or a range of the policy, broken.
pub const BAD_MESSAGE: u8 = 8;
/// Clash: no trace agrees with knowledge and message.
pub const CONFLICT: u8 = 9;
/// Off the sheet: rule or minute not of the policy.
pub const OUT_OF_RANGE: u8 = 10;
/// Short paper: the lent buffer is shorter than the text.
pub const SHORT_BUFFER: u8 = 11;
/// Other card: the knowledge was not opened under the policy that is lent.
pub const OTHER_POLICY: u8 = 12;
/// Unreadable rule: the text is not of the grammar.
pub const RULE_SYNTAX: u8 = 13;
/// Too much rule: too many brackets or terms, a number past its range, or an interval whose ends are crossed.
pub const RULE_LIMIT: u8 = 14;

/// Why a call was turned away. The place is 0 where document 01's table says 0, and with a
/// number added later unless a place is named there.
#[derive(Clone, Copy, Debug, PartialEq, Eq)]
pub struct Refusal {
    pub number: u8,
    pub place: usize,
}

/// The refusal with this number at this place, as the outcome of a check.
pub fn refuse<T>(number: u8, place: usize) -> Result<T, Refusal> {
    Err(Refusal { number, place })
}
