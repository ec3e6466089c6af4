//! Calls the archive and the oracle with the same bytes. They must agree in all that they give: answer, number, place and
//! every cell of the state, or of the buffer that a policy, a message or reaches are written into.
//!
//! A difference panics with the whole input, so that it can be kept as a test. `ZANKEZURT_ROUNDS`, a number, makes every
//! random test that many times longer, on inputs that a shorter run does not see.
#![forbid(unsafe_code)]

pub mod archive;
pub mod inputs;
pub mod process;
pub mod rounds;

use oracle::write::{MessageFields, PolicyFields};
use oracle::{Answer, Buffers, Look, PacketAnswer, Refusal};
use std::fmt::Debug;

/// Opens on both sides; a refusal must have changed nothing.
pub fn open(policy: &[u8], buffers: &mut Buffers) -> Answer {
    let call = format!("open\npolicy {policy:?}");
    both(&call, buffers, |buffers| archive::open(policy, buffers), |buffers| oracle::open(policy, buffers), is_refused)
}

/// Receives on both sides; a refusal must have changed nothing.
pub fn receive(policy: &[u8], message: &[u8], buffers: &mut Buffers) -> Answer {
    let call = format!("receive\npolicy {policy:?}\nmessage {message:?}");
    let archive = |buffers: &mut Buffers| archive::receive(policy, message, buffers);
    both(&call, buffers, archive, |buffers| oracle::receive(policy, message, buffers), is_refused)
}

/// The verdicts after an opening and these messages, all of which must be accepted, on both sides.
pub fn verdicts_after(policy: &[u8], messages: &[&[u8]]) -> Vec<u8> {
    let mut buffers = Buffers::sized(&oracle::policy::read(policy).unwrap());
    assert_eq!(open(policy, &mut buffers), Answer::Done);
    for message in messages {
        assert!(matches!(receive(policy, message, &mut buffers), Answer::Received(_)), "{message:02X?}");
    }
    buffers.verdicts
}

fn is_refused(answer: &Answer) -> bool {
    matches!(answer, Answer::Refused(_))
}

/// Receives a packet on both sides; one of which no message was taken must have changed nothing.
pub fn receive_packet(policy: &[u8], packet: &[u8], buffers: &mut Buffers) -> PacketAnswer {
    let call = format!("receive_packet\npolicy {policy:?}\npacket {packet:?}");
    let archive = |buffers: &mut Buffers| archive::receive_packet(policy, packet, buffers);
    let oracle = |buffers: &mut Buffers| oracle::receive_packet(policy, packet, buffers);
    both(&call, buffers, archive, oracle, |answer| answer.taken == 0)
}

/// Looks on both sides.
pub fn lookup(policy: &[u8], verdicts: &[u8], rule: usize, minute: usize) -> Look {
    let look = archive::lookup(policy, verdicts, rule, minute);
    let expected = oracle::lookup(policy, verdicts, rule, minute);
    assert!(
        look == expected,
        "archive {look:?}, oracle {expected:?}\nlookup of rule {rule}, minute {minute}\npolicy {policy:?}\n{verdicts:?}"
    );
    look
}

/// Writes a policy on both sides; a refusal must have changed nothing.
pub fn encode_policy(fields: &PolicyFields, out: &mut [u8]) -> Result<usize, Refusal> {
    let call = || format!("encode_policy\n{fields:?}");
    let archive = |out: &mut [u8]| archive::encode_policy(fields, out);
    both_write(call, out, archive, |out| oracle::encode_policy(fields, out))
}

/// Writes a message on both sides; a refusal must have changed nothing.
pub fn encode_message(policy: &[u8], fields: &MessageFields, out: &mut [u8]) -> Result<usize, Refusal> {
    let call = || format!("encode_message\npolicy {policy:?}\n{fields:?}");
    let archive = |out: &mut [u8]| archive::encode_message(policy, fields, out);
    both_write(call, out, archive, |out| oracle::encode_message(policy, fields, out))
}

/// Writes the policy of a rule on both sides; a refusal must have changed nothing.
pub fn compile_rule(
    text: &[u8],
    propositions: usize,
    components: usize,
    minutes: usize,
    out: &mut [u8],
) -> Result<usize, Refusal> {
    let call = || {
        let shown = String::from_utf8_lossy(text);
        format!("compile_rule\n{shown}\n{text:?}\nwith {propositions}, {components}, {minutes}")
    };
    let archive = |out: &mut [u8]| archive::compile_rule(text, propositions, components, minutes, out);
    both_write(call, out, archive, |out| oracle::compile_rule(text, propositions, components, minutes, out))
}

/// Writes the reaches of the rules on both sides; a refusal must have changed nothing.
pub fn rule_reaches(policy: &[u8], out: &mut [u16]) -> Result<usize, Refusal> {
    let call = || format!("rule_reaches\npolicy {policy:?}");
    let archive = |out: &mut [u16]| archive::rule_reaches(policy, out);
    both_write(call, out, archive, |out| oracle::rule_reaches(policy, out))
}

/// How many cells stand on each side of those that the archive is lent.
const MARGIN: usize = 16;

/// Calls the archive and the oracle on copies of the buffer, the archive's between cells that it must keep.
fn both_write<T: Copy + PartialEq + Debug + From<u8>>(
    call: impl Fn() -> String,
    out: &mut [T],
    archive: impl Fn(&mut [T]) -> Result<usize, Refusal>,
    oracle: impl Fn(&mut [T]) -> Result<usize, Refusal>,
) -> Result<usize, Refusal> {
    let margin = [T::from(0x5A); MARGIN];
    let mut lent = [&margin, &*out, &margin].concat();
    let mut expected = out.to_vec();
    let answer = archive(&mut lent[MARGIN..MARGIN + out.len()]);
    let expected_answer = oracle(&mut expected);
    let same = answer == expected_answer && lent == [&margin, &*expected, &margin].concat();
    assert!(same, "archive {answer:?} {lent:?}, oracle {expected_answer:?} {expected:?}\n{}\nbefore {out:?}", call());
    assert!(answer.is_ok() || *out == expected, "{answer:?} and changed\n{}\nbefore {out:?}", call());
    out.copy_from_slice(&expected);
    answer
}

/// Calls the archive on the buffers and the oracle on a copy of them. Some answers tell that nothing was changed.
fn both<A: PartialEq + Debug>(
    call: &str,
    buffers: &mut Buffers,
    archive: impl Fn(&mut Buffers) -> A,
    oracle: impl Fn(&mut Buffers) -> A,
    changes_nothing: impl Fn(&A) -> bool,
) -> A {
    let before = buffers.clone();
    let mut expected = before.clone();
    let answer = archive(buffers);
    let expected_answer = oracle(&mut expected);
    let same = answer == expected_answer && *buffers == expected;
    let difference = || difference(buffers, &expected);
    assert!(same, "archive {answer:?}, oracle {expected_answer:?}, {}\n{call}\nbefore {before:?}", difference());
    if changes_nothing(&answer) {
        assert!(*buffers == before, "{answer:?} and changed\n{call}\nbefore {before:?}");
    }
    answer
}

/// The first cell of each buffer that differs, and whether the extents do.
fn difference(archive: &Buffers, oracle: &Buffers) -> String {
    fn first<T: PartialEq>(name: &str, one: &[T], other: &[T]) -> String {
        let cell = (0..one.len()).find(|cell| one[*cell] != other[*cell]);
        cell.map_or_else(String::new, |cell| format!("{name} differ at {cell} "))
    }
    [
        first("numbers", &archive.numbers, &oracle.numbers),
        first("facts", &archive.facts, &oracle.facts),
        first("valuation", &archive.valuation, &oracle.valuation),
        first("verdicts", &archive.verdicts, &oracle.verdicts),
        first("origins", &archive.origin, &oracle.origin),
        first("extents", &[archive.extent], &[oracle.extent]),
    ]
    .concat()
}
