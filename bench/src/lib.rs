//! Measures a take of the monitor beside three others: the same algorithm in safe Rust, the direct reading of the definition,
//! and the floor, which only writes each cell of both sheets once; and a packet beside the takes of its messages. The record is full, and
//! for a take also empty and known in bunches; its lines are since and until, or abbreviations. And the takes under the demo's rules, with
//! abbreviations and without; the takes of two archives beside each other; the two writers; rules typed as text; and the reaches of rules.

pub mod contender;
pub mod demo;
pub mod growth;
pub mod instructions;
pub mod packet;
pub mod placed;
pub mod plain;
pub mod reaches;
pub mod rules;
pub mod timing;
pub mod workload;
pub mod writing;
