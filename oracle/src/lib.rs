//! A second evaluator, written apart from the monitor and from documents 01 and 02 alone, to compare the monitor with.
//!
//! It is meant to be read beside them: quantifiers are loops, sums are sums, and nothing is fast that need
//! not be. Where a large policy would take minutes, a quicker form stands beside the plain one and is tested equal.
//!
//! | module | what it holds |
//! |---|---|
//! | `refusal` | the reasons to turn a call away |
//! | `truth` | the three truth values |
//! | `encoding` | what the formats of policy and message share |
//! | `policy`, `message` | the two readers |
//! | `write` | the two writers |
//! | `rule_text`, `rule_grammar` | rules typed as text: a reader, the policy, and the same decided by the grammar |
//! | `abbreviation` | every kind by the six of document 01 |
//! | `trace` | one run of the components, and what it could have sent |
//! | `knowledge` | the state: sizes, origin, soundness, what a message fixes, conflicts, known time points, searches |
//! | `reading` | the three-valued and the two-valued reading, and the verdicts |
//! | `reach` | how far ahead a line reads, every rule's reach in a lent buffer, and when knowledge is complete |
//! | `monitor` | the calls: open, receive, receive_packet, lookup |
//! | `program` | the printing program |
//! | `brute` | every trace of a tiny policy, and what must hold over all of them |
//! | `written_out` | policies in which lines of the newer kinds are written out |
//! | `generate` | random policies, messages, traces, fields, damage, swapped policies and program inputs |
//! | `generate_rules` | random texts of rules, right, past the limits and damaged |
//!
//! A harness that links the monitor calls both with the same bytes and compares [`Answer`] or [`PacketAnswer`], and
//! [`Buffers`], after every call; of a writer, and of [`rule_reaches`], the length or refusal, and the lent buffer.
#![forbid(unsafe_code)]

pub mod abbreviation;
pub mod brute;
pub mod encoding;
pub mod generate;
pub mod generate_rules;
pub mod knowledge;
pub mod message;
pub mod monitor;
pub mod policy;
pub mod program;
pub mod reach;
pub mod reading;
pub mod refusal;
pub mod rule_grammar;
pub mod rule_text;
pub mod trace;
pub mod truth;
pub mod write;
pub mod written_out;

pub use knowledge::Buffers;
pub use monitor::{lookup, open, receive, receive_packet, Answer, Look, PacketAnswer};
pub use policy::Policy;
pub use reach::rule_reaches;
pub use refusal::Refusal;
pub use rule_text::compile_rule;
pub use write::{encode_message, encode_policy};
