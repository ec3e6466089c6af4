//! The calls: open (opening), receive (take), receive_packet (packet call of document 02) and lookup (look), with their
//! checks in document 01's order, and 12 of document 02 "after 5 and before 6". A refusal writes nothing; of a packet "it
//! is meant of each take in the packet".

use crate::knowledge::{conflict, origin_of, sound, time_points, time_points_of_many, verdicts_size, Buffers};
use crate::message;
use crate::policy::{self, Policy};
use crate::reading::{standing, valuation, valuation_of_many, verdicts, Verdict};
use crate::refusal::*;
use crate::truth::Truth;

/// What open and receive answer.
#[derive(Clone, Copy, Debug, PartialEq, Eq)]
pub enum Answer {
    /// The opening is done.
    Done,
    /// The message is accepted, and so many verdicts stand.
    Received(usize),
    Refused(Refusal),
}

/// What receive_packet answers: how many messages it took, and why the next one, or the call itself, was refused.
#[derive(Clone, Copy, Debug, PartialEq, Eq)]
pub struct PacketAnswer {
    pub taken: usize,
    /// "With its place counted from the packet's start."
    pub refusal: Option<Refusal>,
}

/// What lookup answers.
#[derive(Clone, Copy, Debug, PartialEq, Eq)]
pub enum Look {
    Verdict(Verdict),
    Refused(Refusal),
}

/// Policies of at most so many minutes are read by the plain sums, longer ones by the quicker form.
const MINUTES_BY_SUMS: usize = 24;

/// Opening: checks 1 to 5, then a fresh record, its reading, blank verdicts, and the policy with its length, whatever
/// the buffers held.
pub fn open(policy: &[u8], buffers: &mut Buffers) -> Answer {
    match checked_policy(policy, buffers) {
        Err(refusal) => Answer::Refused(refusal),
        Ok(read) => {
            buffers.forget(&read);
            buffers.valuation = read_all(&read, buffers);
            buffers.verdicts.fill(Verdict::Unknown.code());
            (buffers.origin, buffers.extent) = origin_of(policy);
            Answer::Done
        }
    }
}

/// A take: checks 1 to 5, 12 and 6 to 9, then what the message fixes is learnt and both sheets are rewritten whole.
pub fn receive(policy: &[u8], message: &[u8], buffers: &mut Buffers) -> Answer {
    match checked_message(policy, message, buffers) {
        Err(refusal) => Answer::Refused(refusal),
        Ok((policy, message)) => {
            buffers.learn(&policy, &message);
            buffers.valuation = read_all(&policy, buffers);
            buffers.verdicts = verdicts(&policy, &points(&policy, buffers), &buffers.valuation);
            Answer::Received(standing(&buffers.verdicts))
        }
    }
}

/// A packet: checks 1 to 5, 12 and 6, also where it is empty; then it "takes slips until the packet ends or one is
/// refused, and leaves everything as the same takes one by one would". A message that ends early is all that is left of
/// the packet.
pub fn receive_packet(policy: &[u8], packet: &[u8], buffers: &mut Buffers) -> PacketAnswer {
    let checked = match checked_knowledge(policy, buffers) {
        Err(refusal) => return PacketAnswer { taken: 0, refusal: Some(refusal) },
        Ok(checked) => checked,
    };
    let mut taken = 0;
    let mut rest = packet;
    while !rest.is_empty() {
        let start = packet.len() - rest.len();
        let (_, after) = message::read_first(&checked, rest);
        let message = &rest[..rest.len() - after.len()];
        if let Answer::Refused(Refusal { number, place }) = receive(policy, message, buffers) {
            return PacketAnswer { taken, refusal: Some(Refusal { number, place: start + place }) };
        }
        taken += 1;
        rest = after;
    }
    PacketAnswer { taken, refusal: None }
}

/// A look: checks 1 to 5, the verdict sheet only, and then 10; it gives the code at rule times M + minute.
pub fn lookup(policy: &[u8], verdicts: &[u8], rule: usize, minute: usize) -> Look {
    match checked_cell(policy, verdicts, rule, minute) {
        Err(refusal) => Look::Refused(refusal),
        Ok(cell) => Look::Verdict(Verdict::from_code(verdicts[cell])),
    }
}

/// Checks 1 to 5.
fn checked_policy(policy: &[u8], buffers: &Buffers) -> Result<Policy, Refusal> {
    let policy = policy::read(policy)?;
    if !buffers.fit(&policy) {
        return refuse(BUFFER_SIZE, 0);
    }
    Ok(policy)
}

/// Checks 1 to 5 and 12: "when the stored length or any of the 517 bytes isn't what opening that card writes".
fn checked_origin(policy: &[u8], buffers: &Buffers) -> Result<Policy, Refusal> {
    let read = checked_policy(policy, buffers)?;
    let (origin, extent) = origin_of(policy);
    if buffers.extent != extent || buffers.origin != origin {
        return refuse(OTHER_POLICY, 0);
    }
    Ok(read)
}

/// Checks 1 to 5, 12 and 6.
fn checked_knowledge(policy: &[u8], buffers: &Buffers) -> Result<Policy, Refusal> {
    let policy = checked_origin(policy, buffers)?;
    if !sound(&policy, buffers) {
        return refuse(CORRUPT_KNOWLEDGE, 0);
    }
    Ok(policy)
}

/// Checks 1 to 5, 12 and 6 to 9.
fn checked_message(policy: &[u8], message: &[u8], buffers: &Buffers) -> Result<(Policy, message::Message), Refusal> {
    let policy = checked_knowledge(policy, buffers)?;
    let message = message::read(&policy, message)?;
    if conflict(&policy, buffers, &message) {
        return refuse(CONFLICT, 0);
    }
    Ok((policy, message))
}

/// Checks 1 to 5 and 10 of a look, and the cell it looks at.
fn checked_cell(policy: &[u8], verdicts: &[u8], rule: usize, minute: usize) -> Result<usize, Refusal> {
    let policy = policy::read(policy)?;
    if verdicts.len() != verdicts_size(&policy) {
        return refuse(BUFFER_SIZE, 0);
    }
    if rule >= policy.rules().len() || minute >= policy.minutes {
        return refuse(OUT_OF_RANGE, 0);
    }
    Ok(rule * policy.minutes + minute)
}

fn read_all(policy: &Policy, buffers: &Buffers) -> Vec<u8> {
    if policy.minutes <= MINUTES_BY_SUMS {
        valuation(policy, buffers)
    } else {
        valuation_of_many(policy, buffers)
    }
}

/// e of "The reading" at every minute of the policy.
pub(crate) fn points(policy: &Policy, buffers: &Buffers) -> Vec<Truth> {
    if policy.minutes <= MINUTES_BY_SUMS {
        time_points(policy, buffers)
    } else {
        time_points_of_many(policy, buffers)
    }
}
