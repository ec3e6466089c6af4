//! Why a call was turned away.

use core::error::Error;
use core::fmt;

/// Why a call was turned away.
#[derive(Clone, Copy, Debug, PartialEq, Eq, Hash)]
#[non_exhaustive]
pub enum Reason {
    /// The policy ends early, or bytes follow its last line.
    TruncatedPolicy,
    /// A heading number is out of range.
    BadHeading,
    /// A line breaks a rule of the format.
    BadSubformula,
    /// No rule, or more than 8.
    RuleCount,
    /// A lent buffer is not of its exact size.
    BufferSize,
    /// The lent knowledge is not sound.
    CorruptKnowledge,
    /// The message ends early, or bytes follow it.
    TruncatedMessage,
    /// The message breaks a rule of the format or a range of the policy.
    BadMessage,
    /// No trace agrees with the knowledge and the message.
    Conflict,
    /// A look at a rule or minute that the policy doesn't have.
    OutOfRange,
    /// The lent buffer is shorter than what is to be written.
    ShortBuffer,
    /// The lent state was opened under another policy.
    OtherPolicy,
    /// The text is no rule.
    RuleSyntax,
    /// The rule has too many brackets or terms, a number past its range, or an interval whose ends are crossed.
    RuleLimit,
    /// A number that this version of the bindings has no name for: the archive is of another version.
    Unnamed(u8),
}

impl Reason {
    /// The reasons that have a name, in the order of their numbers.
    pub const ALL: [Reason; 14] = [
        Reason::TruncatedPolicy,
        Reason::BadHeading,
        Reason::BadSubformula,
        Reason::RuleCount,
        Reason::BufferSize,
        Reason::CorruptKnowledge,
        Reason::TruncatedMessage,
        Reason::BadMessage,
        Reason::Conflict,
        Reason::OutOfRange,
        Reason::ShortBuffer,
        Reason::OtherPolicy,
        Reason::RuleSyntax,
        Reason::RuleLimit,
    ];

    /// The reason's number, from 1.
    pub fn number(self) -> u8 {
        match self {
            Reason::TruncatedPolicy => 1,
            Reason::BadHeading => 2,
            Reason::BadSubformula => 3,
            Reason::RuleCount => 4,
            Reason::BufferSize => 5,
            Reason::CorruptKnowledge => 6,
            Reason::TruncatedMessage => 7,
            Reason::BadMessage => 8,
            Reason::Conflict => 9,
            Reason::OutOfRange => 10,
            Reason::ShortBuffer => 11,
            Reason::OtherPolicy => 12,
            Reason::RuleSyntax => 13,
            Reason::RuleLimit => 14,
            Reason::Unnamed(number) => number,
        }
    }

    /// The reason of a number.
    pub(crate) fn of_number(number: u8) -> Reason {
        Reason::ALL.into_iter().find(|reason| reason.number() == number).unwrap_or(Reason::Unnamed(number))
    }
}

/// The reason's name in plain words.
impl fmt::Display for Reason {
    fn fmt(&self, f: &mut fmt::Formatter<'_>) -> fmt::Result {
        f.write_str(match self {
            Reason::TruncatedPolicy => "truncated policy",
            Reason::BadHeading => "bad heading",
            Reason::BadSubformula => "bad subformula",
            Reason::RuleCount => "rule count",
            Reason::BufferSize => "buffer size",
            Reason::CorruptKnowledge => "corrupt knowledge",
            Reason::TruncatedMessage => "truncated message",
            Reason::BadMessage => "bad message",
            Reason::Conflict => "conflict",
            Reason::OutOfRange => "out of range",
            Reason::ShortBuffer => "short buffer",
            Reason::OtherPolicy => "other policy",
            Reason::RuleSyntax => "rule syntax",
            Reason::RuleLimit => "rule limit",
            Reason::Unnamed(_) => "a reason without a name here",
        })
    }
}

/// A refusal: its reason, and where in the policy, message, packet or text of a rule it was found (0 where the reason has no place, and
/// where it is of fields or sizes).
#[derive(Clone, Copy, Debug, PartialEq, Eq, Hash)]
pub struct Refusal {
    /// Why the call was turned away.
    pub reason: Reason,
    /// A byte of the policy, message, packet or text, or its end, or 0.
    pub place: usize,
}

impl fmt::Display for Refusal {
    fn fmt(&self, f: &mut fmt::Formatter<'_>) -> fmt::Result {
        write!(f, "refused {} at {}: {}", self.reason.number(), self.place, self.reason)
    }
}

impl Error for Refusal {}
