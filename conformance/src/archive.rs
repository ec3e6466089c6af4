//! The archive's calls, through the bindings, over the oracle's types.

use oracle::reading::Verdict;
use oracle::write::{self, MessageFields, PolicyFields};
use oracle::{Answer, Buffers, Look, PacketAnswer, Refusal};
use zankezurt::{Line, Message, State};

/// The buffers as they are lent to the archive.
pub fn lent(buffers: &mut Buffers) -> State<'_> {
    let Buffers { numbers, facts, valuation, verdicts, origin, extent } = buffers;
    State { numbers, facts, valuation, verdicts, origin, extent }
}

pub fn open(policy: &[u8], buffers: &mut Buffers) -> Answer {
    match zankezurt::open(policy, &mut lent(buffers)) {
        Ok(()) => Answer::Done,
        Err(refusal) => Answer::Refused(refused(refusal)),
    }
}

pub fn receive(policy: &[u8], message: &[u8], buffers: &mut Buffers) -> Answer {
    match zankezurt::receive(policy, message, &mut lent(buffers)) {
        Ok(standing) => Answer::Received(standing),
        Err(refusal) => Answer::Refused(refused(refusal)),
    }
}

pub fn receive_packet(policy: &[u8], packet: &[u8], buffers: &mut Buffers) -> PacketAnswer {
    let answer = zankezurt::receive_packet(policy, packet, &mut lent(buffers));
    PacketAnswer { taken: answer.taken, refusal: answer.refusal.map(refused) }
}

pub fn lookup(policy: &[u8], verdicts: &[u8], rule: usize, minute: usize) -> Look {
    match zankezurt::lookup(policy, verdicts, rule, minute) {
        Ok(zankezurt::Verdict::Unknown) => Look::Verdict(Verdict::Unknown),
        Ok(zankezurt::Verdict::Satisfied) => Look::Verdict(Verdict::Satisfied),
        Ok(zankezurt::Verdict::Violated) => Look::Verdict(Verdict::Violated),
        Err(refusal) => Look::Refused(refused(refusal)),
    }
}

pub fn encode_policy(fields: &PolicyFields, out: &mut [u8]) -> Result<usize, Refusal> {
    let PolicyFields { propositions, components, minutes, lines } = fields;
    let lines: Vec<Line> = lines.iter().map(line).collect();
    zankezurt::encode_policy(*propositions, *components, *minutes, &lines, out).map_err(refused)
}

/// A line as the archive is given it.
pub fn line(line: &write::Line) -> Line {
    let write::Line { kind, first, second, lower, upper, rule } = *line;
    Line { kind, first, second, lower, upper, rule: rule.into() }
}

pub fn encode_message(policy: &[u8], fields: &MessageFields, out: &mut [u8]) -> Result<usize, Refusal> {
    let MessageFields { component, alive, minute, number, named, values } = *fields;
    let message = Message { component, alive, minute, number, named, values };
    zankezurt::encode_message(policy, message, out).map_err(refused)
}

pub fn compile_rule(
    text: &[u8],
    propositions: usize,
    components: usize,
    minutes: usize,
    out: &mut [u8],
) -> Result<usize, Refusal> {
    zankezurt::compile_rule(text, propositions, components, minutes, out).map_err(refused)
}

pub fn rule_reaches(policy: &[u8], out: &mut [u16]) -> Result<usize, Refusal> {
    zankezurt::rule_reaches(policy, out).map_err(refused)
}

fn refused(refusal: zankezurt::Refusal) -> Refusal {
    Refusal { number: refusal.reason.number(), place: refusal.place }
}
