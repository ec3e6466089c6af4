//! The printing program.

use crate::encoding::little_endian;
use crate::knowledge::Buffers;
use crate::monitor::{open, receive, Answer};
use crate::policy::{self, Policy, MOST_BYTES};
use crate::reading::Verdict;
use crate::refusal::{Refusal, TRUNCATED_POLICY};

const POLICY_LENGTH_BYTES: usize = 2;

/// What the printing program does with a standard input.
pub struct Run {
    /// What it prints.
    pub text: String,
    /// What it refuses, in order.
    pub refused: Vec<Refused>,
}

/// A policy or a message that is refused.
pub struct Refused {
    /// The message's number, from 0; none for the policy.
    pub message: Option<usize>,
    /// The place in the input of its first byte.
    pub start: usize,
    pub refusal: Refusal,
}

/// "Card length (2 bytes), card, then slips, each after one length byte, to the end."
pub fn run(input: &[u8]) -> Run {
    match taken(input) {
        Ok(run) => run,
        Err(refusal) => {
            let text = format!("card refused {} at {}\n", refusal.number, refusal.place);
            let start = input.len().min(POLICY_LENGTH_BYTES);
            Run { text, refused: vec![Refused { message: None, start, refusal }] }
        }
    }
}

fn taken(input: &[u8]) -> Result<Run, Refusal> {
    let (bytes, rest) = policy_piece(input)?;
    let policy = policy::read(bytes)?;
    let mut buffers = Buffers::sized(&policy);
    if let Answer::Refused(refusal) = open(bytes, &mut buffers) {
        return Err(refusal);
    }
    let messages = pieces(rest);
    let mut refused = Vec::new();
    for (number, message) in messages.iter().enumerate() {
        if let Answer::Refused(refusal) = receive(bytes, message.bytes, &mut buffers) {
            let start = input.len() - rest.len() + message.start;
            refused.push(Refused { message: Some(number), start, refusal });
        }
    }
    let verdicts = print_verdicts(&policy, &buffers);
    let tally = format!("taken {} refused {}\n", messages.len() - refused.len(), refused.len());
    Ok(Run { text: verdicts + &tally, refused })
}

/// The policy's bytes, and what follows them. "With fewer than 2 bytes of length the card is empty"; "a length above
/// 517 prints card refused 1 at 517".
fn policy_piece(input: &[u8]) -> Result<(&[u8], &[u8]), Refusal> {
    if input.len() < POLICY_LENGTH_BYTES {
        return Ok((&[], &[]));
    }
    let (length, rest) = input.split_at(POLICY_LENGTH_BYTES);
    let length = little_endian(length);
    if length > MOST_BYTES {
        return Err(Refusal { number: TRUNCATED_POLICY, place: MOST_BYTES });
    }
    Ok(piece(length, rest))
}

/// A message's bytes, and where they start.
struct Piece<'a> {
    start: usize,
    bytes: &'a [u8],
}

/// The messages, each after its length byte.
fn pieces(bytes: &[u8]) -> Vec<Piece<'_>> {
    let mut messages = Vec::new();
    let mut rest = bytes;
    while let Some((length, after)) = rest.split_first() {
        let (message, next) = piece(*length as usize, after);
        messages.push(Piece { start: bytes.len() - after.len(), bytes: message });
        rest = next;
    }
    messages
}

/// The first piece of this length, and the rest. "A piece cut by the end is offered as it is."
fn piece(length: usize, bytes: &[u8]) -> (&[u8], &[u8]) {
    bytes.split_at(length.min(bytes.len()))
}

/// "One line per verdict, minute then rule: minute, rule number, kept or broken."
fn print_verdicts(policy: &Policy, buffers: &Buffers) -> String {
    let rules = policy.rules().len();
    let cells = (0..policy.minutes).flat_map(|minute| (0..rules).map(move |rule| (minute, rule)));
    let line =
        |(minute, rule): (usize, usize)| match Verdict::from_code(buffers.verdicts[rule * policy.minutes + minute]) {
            Verdict::Unknown => None,
            Verdict::Satisfied => Some(format!("{minute} {rule} kept\n")),
            Verdict::Violated => Some(format!("{minute} {rule} broken\n")),
        };
    cells.filter_map(line).collect()
}
