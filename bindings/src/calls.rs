//! The calls over lent memory.
#![allow(unsafe_code)]

use crate::archive;
use crate::fields::{Line, Message};
use crate::refusal::{Reason, Refusal};
use crate::state::State;
use core::fmt;

/// What the verdict sheet shows of a rule at a minute.
#[derive(Clone, Copy, Debug, PartialEq, Eq, Hash)]
pub enum Verdict {
    /// Blank: nothing is printed.
    Unknown,
    /// Kept.
    Satisfied,
    /// Broken.
    Violated,
}

impl Verdict {
    /// What a code of the sheet shows: other codes than 1 and 2 read as blank.
    pub(crate) fn of_code(code: usize) -> Verdict {
        match code {
            1 => Verdict::Satisfied,
            2 => Verdict::Violated,
            _ => Verdict::Unknown,
        }
    }
}

/// The word that a release sheet prints.
impl fmt::Display for Verdict {
    fn fmt(&self, f: &mut fmt::Formatter<'_>) -> fmt::Result {
        f.write_str(match self {
            Verdict::Unknown => "blank",
            Verdict::Satisfied => "kept",
            Verdict::Violated => "broken",
        })
    }
}

/// What became of a packet.
#[derive(Clone, Copy, Debug, PartialEq, Eq, Hash)]
#[must_use]
pub struct Packet {
    /// How many of its messages were taken; they remain taken where the next one is refused.
    pub taken: usize,
    /// Why the next message, or the call itself, was turned away; none where the packet was taken whole. A message's place is counted
    /// from the packet's start: the packet's length where that ends within the message (7), the message's first byte where it is bad (8)
    /// or in conflict (9).
    pub refusal: Option<Refusal>,
}

/// What a call gave: its detail, or the refusal with the number, whose place is the detail.
fn answer((number, detail): (u8, usize)) -> Result<usize, Refusal> {
    match number {
        0 => Ok(detail),
        _ => Err(Refusal { reason: Reason::of_number(number), place: detail }),
    }
}

/// Calls a function of the archive: slices that it reads, plain numbers, references or a state, slices that it writes. Gives its number
/// and its details.
macro_rules! call {
    ($function:ident($($read:ident),*; $($number:ident),*; $($written:ident),*; $($detail:ident),*)) => {{
        $(let mut $detail = 0;)*
        // SAFETY: each slice is lent as its own pointer and length: not null, aligned, and nothing else overlaps what is written,
        // since that is borrowed alone; so are the slices and the number of a state. A reference is to memory of its type. The details
        // are locals. The call keeps no pointer.
        let number = unsafe {
            archive::$function(
                $($read.as_ptr(), $read.len(),)*
                $($number,)*
                $($written.as_mut_ptr(), $written.len(),)*
                $(&mut $detail,)*
            )
        };
        (number, $($detail),*)
    }};
}

/// Opens the lent state under a policy, whatever it held: nothing is known, every verdict is blank, and from now on it is this policy's.
pub fn open(policy: &[u8], state: &mut State<'_>) -> Result<(), Refusal> {
    answer(call!(zankezurt_open(policy; state;; detail))).map(|_| ())
}

/// Takes one message, of any bytes, into the lent state, under the policy that it was opened under; gives how many verdicts stand.
pub fn receive(policy: &[u8], message: &[u8], state: &mut State<'_>) -> Result<usize, Refusal> {
    answer(call!(zankezurt_receive(policy, message; state;; detail)))
}

/// Takes the messages of a packet, which stand end to end, until the packet ends or one is refused; leaves the lent state as taking them
/// one by one would. An empty packet takes none, but policy and state are checked.
pub fn receive_packet(policy: &[u8], packet: &[u8], state: &mut State<'_>) -> Packet {
    let (number, taken, place) = call!(zankezurt_receive_packet(policy, packet; state;; taken, place));
    Packet { taken, refusal: answer((number, place)).err() }
}

/// The verdict of a rule at a minute, from the lent verdict sheet. A sheet doesn't tell the policy that it was worked under.
pub fn lookup(policy: &[u8], verdicts: &[u8], rule: usize, minute: usize) -> Result<Verdict, Refusal> {
    answer(call!(zankezurt_lookup(policy, verdicts; rule, minute;; detail))).map(Verdict::of_code)
}

/// Writes the policy of these sizes and lines at the start of the lent buffer, and gives its length, at most
/// [`POLICY_LENGTH`](crate::POLICY_LENGTH). A longer buffer keeps its rest.
///
/// What is out of range is refused at place 0: a size or the number of lines (2), a line (3), how many lines are rules (4), and then a
/// buffer that is shorter than the policy (11). Nothing is written then.
pub fn encode_policy(
    propositions: usize,
    components: usize,
    minutes: usize,
    lines: &[Line],
    out: &mut [u8],
) -> Result<usize, Refusal> {
    let count = lines.len();
    // Of these the archive looks at the first `count`, and at none where they are more.
    let mut copied = [Line::default(); archive::LINES];
    copied.iter_mut().zip(lines).for_each(|(place, line)| *place = *line);
    let fields = &copied;
    answer(call!(zankezurt_encode_policy(; propositions, components, minutes, count, fields; out; detail)))
}

/// Writes a message under its policy at the start of the lent buffer, and gives its length, at most
/// [`MESSAGE_LENGTH`](crate::MESSAGE_LENGTH). A longer buffer keeps its rest.
///
/// The policy is checked first (1 to 4, with their places); then fields that are out of range are refused (8), and then a buffer that is
/// shorter than the message (11). Nothing is written then.
pub fn encode_message(policy: &[u8], message: Message, out: &mut [u8]) -> Result<usize, Refusal> {
    let Message { component, alive, minute, number, named, values } = message;
    let alive = u8::from(alive);
    answer(call!(zankezurt_encode_message(policy; component, alive, minute, number, named, values; out; detail)))
}

/// Reads a rule typed as text, writes the policy of these sizes with that one rule at the start of the lent buffer, and gives its length, at
/// most [`POLICY_LENGTH`](crate::POLICY_LENGTH). A longer buffer keeps its rest.
///
/// A rule is a term: `true`, `m` with the number of a proposition (`m7`), `not term`, `(term or term)`, `(term and term)`,
/// `(term since[a,b] term)` or `(term until[a,b] term)`, with one space between words and none elsewhere, and numbers without leading
/// zeros. Each term gets a line, in the order in which their texts end.
///
/// Refused are, in this order: a size that is out of range (2, at place 0); a text that is no rule (13, at the first byte with which no
/// rule can go on, or at the text's end) or a rule that is too much (14, at a bracket inside 32 open ones, at the first digit of a number
/// past its range, where a 65th term would start, or at the `[` of an interval with a above b), whichever comes first in the text, and 14
/// where both are at one place; and a buffer that is shorter than the policy (11, at place 0). Nothing is written then.
pub fn compile_rule(
    text: &[u8],
    propositions: usize,
    components: usize,
    minutes: usize,
    out: &mut [u8],
) -> Result<usize, Refusal> {
    answer(call!(zankezurt_compile_rule(text; propositions, components, minutes; out; detail)))
}

/// Writes the reach of each rule, how many minutes ahead it looks, in the order of the rules at the start of the lent buffer, and gives how
/// many rules there are, at most 8: those of [`Sizes::LARGEST`](crate::Sizes::LARGEST). A longer buffer keeps its rest.
///
/// The reach of true and of a proposition is 0, that of another line the larger of its operands', plus upper where it is an until,
/// eventually or always; none is above 63 × 1,023. A minute is a time point if some component observes in it: once it is known of every
/// minute whether it is one, and every proposition is known at each, a rule has a verdict at every time point t with t + reach below the
/// policy's minutes; at later ones it may stay blank for good.
///
/// The policy is checked first (1 to 4, with their places); then a buffer with fewer places than there are rules is refused (11). Nothing
/// is written then.
pub fn rule_reaches(policy: &[u8], out: &mut [u16]) -> Result<usize, Refusal> {
    answer(call!(zankezurt_rule_reaches(policy;; out; detail)))
}

#[cfg(test)]
mod tests {
    use super::*;

    #[test]
    fn a_number_without_a_name_is_an_error_value() {
        let refusal = answer((255, 3)).unwrap_err();
        assert_eq!(refusal, Refusal { reason: Reason::Unnamed(255), place: 3 });
    }
}
