//! Safe calls of the proved runtime monitor.
//!
//! [`Shift`] opens a policy and owns the memory of its state:
//!
//! ```
//! # #[cfg(feature = "alloc")]
//! # fn main() -> Result<(), zankezurt::Refusal> {
//! use zankezurt::{Reason, Shift, Verdict};
//!
//! // mark 0 at some time in the last 2 minutes
//! let policy = [0x01, 0x01, 0x04, 0x00, 0x03, 0x00, 0x01, 0x01, 0x35, 0x04, 0x01, 0x02, 0x00];
//! let mut shift = Shift::open(&policy)?;
//!
//! // an observation at minute 0, sequence number 1: mark 0 is false; one verdict stands
//! assert_eq!(shift.receive(&[0x0C, 0x01, 0x00, 0x01, 0x00, 0x00, 0x00, 0x00])?, 1);
//! assert_eq!(shift.verdicts().collect::<Vec<_>>(), [(0, 0, Verdict::Violated)]);
//!
//! // two messages end to end, in one packet: both are taken
//! let packet = shift.receive_packet(&[0x0E, 0x02, 0x00, 0x02, 0x00, 0x01, 0x00, 0x00, 0x00, 0x01, 0x06, 0x03, 0x00, 0x03, 0x00]);
//! assert_eq!((packet.taken, packet.refusal), (2, None));
//! assert_eq!(shift.lookup(0, 3)?, Verdict::Satisfied);
//!
//! // any bytes may be offered: what is wrong is refused, and changes nothing
//! let refusal = shift.receive(&[]).unwrap_err();
//! assert_eq!(refusal.reason, Reason::TruncatedMessage);
//! assert_eq!(refusal.to_string(), "refused 7 at 0: truncated message");
//!
//! // of a packet too; what was taken before it stays, and the place is counted from the packet's start
//! let packet = shift.receive_packet(&[0x10, 0x10, 0x00, 0x10]);
//! assert_eq!(packet.taken, 2);
//! assert_eq!(packet.refusal.unwrap().to_string(), "refused 8 at 2: bad message");
//! # Ok(())
//! # }
//! # #[cfg(not(feature = "alloc"))]
//! # fn main() {}
//! ```
//!
//! [`open`], [`receive`], [`receive_packet`] and [`lookup`] do the same in memory that the caller lends, with no heap: a crate that
//! depends on this one with `default-features = false` has them alone. [`State`] is that memory, and [`Sizes`] gives the buffers' exact
//! lengths:
//!
//! ```
//! use zankezurt::{lookup, open, receive, Reason, Sizes, State, Verdict, POLICY_LENGTH};
//!
//! const LARGEST: Sizes = Sizes::LARGEST;
//! let mut numbers = [0; LARGEST.numbers_length()];
//! let mut facts = [0; LARGEST.facts_length()];
//! let mut valuation = [0; LARGEST.valuation_length()];
//! let mut verdicts = [0; LARGEST.verdicts_length()];
//! let (mut origin, mut extent) = ([0; POLICY_LENGTH], 0);
//!
//! let policy = [0x01, 0x01, 0x04, 0x00, 0x03, 0x00, 0x01, 0x01, 0x35, 0x04, 0x01, 0x02, 0x00];
//! let sizes = Sizes::of(&policy)?;
//! let mut state = State {
//!     numbers: &mut numbers[..sizes.numbers_length()],
//!     facts: &mut facts[..sizes.facts_length()],
//!     valuation: &mut valuation[..sizes.valuation_length()],
//!     verdicts: &mut verdicts[..sizes.verdicts_length()],
//!     origin: &mut origin,
//!     extent: &mut extent,
//! };
//!
//! open(&policy, &mut state)?;
//! let message = [0x0C, 0x01, 0x00, 0x01, 0x00, 0x00, 0x00, 0x00];
//! assert_eq!(receive(&policy, &message, &mut state)?, 1);
//! assert_eq!(lookup(&policy, state.verdicts, 0, 0)?, Verdict::Violated);
//!
//! // the state is this policy's: under another of the same sizes (in the last minute) nothing is taken into it
//! let other = [0x01, 0x01, 0x04, 0x00, 0x03, 0x00, 0x01, 0x01, 0x35, 0x04, 0x01, 0x01, 0x00];
//! assert_eq!(receive(&other, &message, &mut state).unwrap_err().reason, Reason::OtherPolicy);
//! # Ok::<(), zankezurt::Refusal>(())
//! ```
//!
//! [`encode_policy`] and [`encode_message`] write what the others read, from numbers and into lent memory too:
//!
//! ```
//! use zankezurt::{encode_message, encode_policy, kind, Line, Message, MESSAGE_LENGTH, POLICY_LENGTH};
//!
//! // mark 0 at some time in the last 2 minutes: mark 0, and the rule "once line 0, from 0 to 2 minutes back"
//! let lines = [
//!     Line { kind: kind::PROPOSITION, first: 0, ..Line::default() },
//!     Line { kind: kind::ONCE, first: 0, upper: 2, rule: 1, ..Line::default() },
//! ];
//! let mut policy = [0; POLICY_LENGTH];
//! let length = encode_policy(1, 1, 4, &lines, &mut policy)?;
//! let policy = &policy[..length];
//! assert_eq!(policy, [0x01, 0x01, 0x04, 0x00, 0x02, 0x01, 0x01, 0x31, 0x08, 0x02, 0x00]);
//!
//! // an observation at minute 2, sequence number 2: mark 0 is true
//! let observation = Message { minute: 2, number: 2, named: 1, values: 1, ..Message::default() };
//! let mut message = [0; MESSAGE_LENGTH];
//! let length = encode_message(policy, observation, &mut message)?;
//! assert_eq!(message[..length], [0x0E, 0x02, 0x00, 0x02, 0x00, 0x01, 0x00, 0x00, 0x00, 0x01]);
//!
//! // the policy has no minute 4
//! let refusal = encode_message(policy, Message { minute: 4, ..observation }, &mut message).unwrap_err();
//! assert_eq!(refusal.to_string(), "refused 8 at 0: bad message");
//! # Ok::<(), zankezurt::Refusal>(())
//! ```
//!
//! [`compile_rule`] writes the policy of a rule that is typed as text:
//!
//! ```
//! use zankezurt::{compile_rule, POLICY_LENGTH};
//!
//! // mark 0 at some time in the last 2 minutes, with 1 mark, 1 component and 4 minutes
//! let mut policy = [0; POLICY_LENGTH];
//! let length = compile_rule(b"(true since[0,2] m0)", 1, 1, 4, &mut policy)?;
//! assert_eq!(policy[..length], [0x01, 0x01, 0x04, 0x00, 0x03, 0x00, 0x01, 0x01, 0x35, 0x04, 0x01, 0x02, 0x00]);
//!
//! // a word that there is not, and a mark that there is not
//! let refusal = compile_rule(b"(true since[0,2] m0 or m0)", 1, 1, 4, &mut policy).unwrap_err();
//! assert_eq!(refusal.to_string(), "refused 13 at 19: rule syntax");
//! let refusal = compile_rule(b"(true since[0,2] m1)", 1, 1, 4, &mut policy).unwrap_err();
//! assert_eq!(refusal.to_string(), "refused 14 at 18: rule limit");
//! # Ok::<(), zankezurt::Refusal>(())
//! ```
//!
//! [`rule_reaches`] tells how many minutes ahead the rules look, and so how far before the end a rule has a verdict for sure, once all
//! components have reported:
//!
//! ```
//! use zankezurt::{rule_reaches, Sizes};
//!
//! // mark 0 within the next minute
//! let policy = [0x01, 0x01, 0x04, 0x00, 0x03, 0x00, 0x01, 0x01, 0x35, 0x05, 0x01, 0x01, 0x00];
//! let mut reaches = [0; Sizes::LARGEST.rules];
//! let rules = rule_reaches(&policy, &mut reaches)?;
//! assert_eq!(reaches[..rules], [1]);
//!
//! # #[cfg(feature = "alloc")] {
//! use zankezurt::{Shift, Verdict};
//!
//! // of the 4 minutes observations are at the last two, mark 0 is false at both: the verdict is sure up to minute 2, and no further
//! let mut shift = Shift::open(&policy)?;
//! let packet = shift.receive_packet(&[0x0E, 2, 0, 1, 0, 1, 0, 0, 0, 0, 0x0E, 3, 0, 2, 0, 1, 0, 0, 0, 0]);
//! assert_eq!((packet.taken, packet.refusal), (2, None));
//! assert_eq!(shift.lookup(0, 2)?, Verdict::Violated);
//! assert_eq!(shift.lookup(0, 3)?, Verdict::Unknown);
//! # }
//! # Ok::<(), zankezurt::Refusal>(())
//! ```
//!
//! Nothing is asked of the arguments: any bytes and any buffers may be lent. What is wrong is refused, with a number and a place, and
//! a refused call changes nothing; of a packet this is meant of each message, and those taken before the refusal remain taken.
//! `docs/EMBEDDING.md` has stack, time, threads and power cuts.

#![no_std]
#![deny(missing_docs, unsafe_code)]

#[cfg(feature = "alloc")]
extern crate alloc;

mod archive;
mod calls;
mod fields;
pub mod kind;
mod refusal;
#[cfg(feature = "alloc")]
mod shift;
mod sizes;
mod state;
mod version;

pub use calls::{
    compile_rule, encode_message, encode_policy, lookup, open, receive, receive_packet, rule_reaches, Packet, Verdict,
};
pub use fields::{Line, Message, MESSAGE_LENGTH, POLICY_LENGTH};
pub use refusal::{Reason, Refusal};
#[cfg(feature = "alloc")]
pub use shift::Shift;
pub use sizes::Sizes;
pub use state::State;
pub use version::{version, VERSION};
