//! "A small shift to check by", every case of it, and the printing example.

use oracle::program::run;
use oracle::reading::Verdict;
use oracle::refusal::{BAD_MESSAGE, CONFLICT, OUT_OF_RANGE, TRUNCATED_MESSAGE};
use oracle::{lookup, open, policy, receive, receive_packet, Answer, Buffers, Look, PacketAnswer, Refusal};

/// Mark 0 at some time in the last 2 minutes.
const K: &[u8] = &[0x01, 0x01, 0x04, 0x00, 0x03, 0x00, 0x01, 0x01, 0x35, 0x04, 0x01, 0x02, 0x00];
/// Mark 0 within the next minute.
const K_UNTIL: &[u8] = &[0x01, 0x01, 0x04, 0x00, 0x03, 0x00, 0x01, 0x01, 0x35, 0x05, 0x01, 0x01, 0x00];
const A: &[u8] = &[0x0C, 0x01, 0x00, 0x01, 0x00, 0x00, 0x00, 0x00];
const B: &[u8] = &[0x0E, 0x02, 0x00, 0x02, 0x00, 0x01, 0x00, 0x00, 0x00, 0x01];
const D: &[u8] = &[0x06, 0x03, 0x00, 0x03, 0x00];

fn fresh(policy: &[u8]) -> Buffers {
    let mut buffers = Buffers::sized(&policy::read(policy).unwrap());
    assert_eq!(open(policy, &mut buffers), Answer::Done);
    buffers
}

/// The buffers after these messages, all of which must be accepted.
fn after(policy: &[u8], messages: &[&[u8]]) -> Buffers {
    let mut buffers = fresh(policy);
    for message in messages {
        let answer = receive(policy, message, &mut buffers);
        let standing = buffers.verdicts.iter().filter(|code| **code != 0).count();
        assert_eq!(answer, Answer::Received(standing), "{message:02X?}");
    }
    buffers
}

/// The answer to one more message, which must change nothing if it is refused.
fn then(policy: &[u8], messages: &[&[u8]], last: &[u8]) -> Answer {
    let before = after(policy, messages);
    let mut buffers = before.clone();
    let answer = receive(policy, last, &mut buffers);
    if let Answer::Refused(_) = answer {
        assert_eq!(buffers, before);
    }
    answer
}

fn refused(number: u8, place: usize) -> Answer {
    Answer::Refused(Refusal { number, place })
}

#[test]
fn sheets() {
    assert_eq!(after(K, &[]).verdicts, [0, 0, 0, 0]);
    assert_eq!(after(K, &[A]).verdicts, [2, 0, 0, 0]);
    assert_eq!(after(K, &[B]).verdicts, [0, 0, 1, 0]);
    assert_eq!(after(K, &[A, B]).verdicts, [2, 0, 1, 0]);
    assert_eq!(after(K, &[B, A]).verdicts, [2, 0, 1, 0]);
    assert_eq!(after(K, &[A, B, D]).verdicts, [2, 0, 1, 1]);
    assert_eq!(after(K, &[D]).verdicts, [0, 0, 0, 0]);
}

#[test]
fn every_order_and_repeat_of_three_messages() {
    let expected = after(K, &[A, B, D]);
    for order in [[A, B, D], [A, D, B], [B, A, D], [B, D, A], [D, A, B], [D, B, A]] {
        assert_eq!(after(K, &order), expected);
        assert_eq!(after(K, &[order, order].concat()), expected);
    }
}

#[test]
fn buffers_of_the_opening_and_after_three_messages() {
    let buffers = fresh(K);
    assert_eq!(buffers.numbers, [0, 65535, 65535, 65535, 65535]);
    assert_eq!(buffers.facts, [0; 8]);
    assert_eq!(buffers.valuation, [1, 1, 1, 1, 0, 0, 0, 0, 0, 0, 0, 0]);
    assert_eq!((buffers.extent, buffers.origin), (13, [K, &[0; 504]].concat()));
    let buffers = after(K, &[A, B, D]);
    assert_eq!(buffers.numbers, [0, 1, 1, 2, 3]);
    assert_eq!(buffers.facts, [1, 0, 0, 0, 1, 1, 0, 0]);
    assert_eq!(buffers.valuation, [1, 1, 1, 1, 2, 0, 1, 0, 2, 2, 1, 1]);
    assert_eq!((buffers.extent, buffers.origin), (13, [K, &[0; 504]].concat()));
}

#[test]
fn an_alive_at_minute_0_changes_nothing() {
    assert_eq!(after(K, &[&[0x10]]), fresh(K));
}

#[test]
fn refused_messages() {
    assert_eq!(then(K, &[], &[0x00]), refused(BAD_MESSAGE, 0));
    assert_eq!(then(K, &[], &[]), refused(TRUNCATED_MESSAGE, 0));
    assert_eq!(then(K, &[], &[0x04, 0x02, 0x00]), refused(CONFLICT, 0));
    assert_eq!(then(K, &[A], &[0x12, 0x01, 0x00]), refused(CONFLICT, 0));
    let mut other = A.to_vec();
    other[7] = 0x01;
    assert_eq!(then(K, &[A], &other), refused(CONFLICT, 0));
    assert_eq!(then(K, &[A, B], &[0x16, 0x05, 0x00, 0x02, 0x00]), refused(BAD_MESSAGE, 0));
    assert_eq!(then(K, &[A, B], &[0x06, 0x04, 0x00, 0x03, 0x00]), refused(BAD_MESSAGE, 0));
}

/// What a packet of these pieces, end to end, is answered, and the buffers after it.
fn packet(pieces: &[&[u8]]) -> (PacketAnswer, Buffers) {
    let mut buffers = fresh(K);
    (receive_packet(K, &pieces.concat(), &mut buffers), buffers)
}

#[test]
fn packets_that_are_taken() {
    let taken = |taken| PacketAnswer { taken, refusal: None };
    assert_eq!(packet(&[]), (taken(0), fresh(K)));
    assert_eq!(packet(&[A]), (taken(1), after(K, &[A])));
    assert_eq!(packet(&[&[0x10], &[0x10]]), (taken(2), fresh(K)));
    for order in [[A, B, D], [A, D, B], [B, A, D], [B, D, A], [D, A, B], [D, B, A]] {
        assert_eq!(packet(&order), (taken(3), after(K, &[A, B, D])));
    }
}

#[test]
fn packets_of_which_a_message_is_refused() {
    let refused = |taken, number, place| PacketAnswer { taken, refusal: Some(Refusal { number, place }) };
    // Cut short, at the packet's end.
    assert_eq!(packet(&[A, B, &D[..4]]), (refused(2, TRUNCATED_MESSAGE, 22), after(K, &[A, B])));
    assert_eq!(packet(&[A, &B[..1]]), (refused(1, TRUNCATED_MESSAGE, 9), after(K, &[A])));
    assert_eq!(packet(&[&A[..7]]), (refused(0, TRUNCATED_MESSAGE, 7), fresh(K)));
    // Bad, in each position, at its first byte.
    let bad = |taken, place| refused(taken, BAD_MESSAGE, place);
    assert_eq!(packet(&[&[0x00], A, B]), (bad(0, 0), fresh(K)));
    assert_eq!(packet(&[A, &[0x00], B]), (bad(1, 8), after(K, &[A])));
    assert_eq!(packet(&[A, B, &[0x00]]), (bad(2, 18), after(K, &[A, B])));
    // In conflict with what is known before the packet, or with what it brought.
    let conflict = |taken, place| refused(taken, CONFLICT, place);
    assert_eq!(packet(&[&[0x04, 0x02, 0x00], A]), (conflict(0, 0), fresh(K)));
    assert_eq!(packet(&[A, &[0x12, 0x01, 0x00], B]), (conflict(1, 8), after(K, &[A])));
}

#[test]
fn an_alive_at_the_end_makes_minute_3_quiet() {
    let buffers = after(K, &[A, B, &[0x16, 0x04, 0x00, 0x02, 0x00]]);
    let policy = policy::read(K).unwrap();
    assert!(oracle::knowledge::known_quiet(&policy, &buffers, 3));
    assert!(!oracle::knowledge::known_busy(&policy, &buffers, 3));
    assert_eq!(buffers.verdicts, [2, 0, 1, 0]);
}

#[test]
fn an_until_is_closed_by_quiet_minutes_and_not_by_the_end() {
    let false_at_3: &[u8] = &[0x0E, 0x03, 0x00, 0x01, 0x00, 0x01, 0x00, 0x00, 0x00, 0x00];
    assert_eq!(after(K_UNTIL, &[false_at_3]).verdicts, [0, 0, 0, 0]);
    let false_at_2: &[u8] = &[0x0E, 0x02, 0x00, 0x01, 0x00, 0x01, 0x00, 0x00, 0x00, 0x00];
    let quiet_at_3: &[u8] = &[0x16, 0x04, 0x00, 0x01, 0x00];
    assert_eq!(after(K_UNTIL, &[false_at_2]).verdicts, [0, 0, 0, 0]);
    assert_eq!(after(K_UNTIL, &[false_at_2, quiet_at_3]).verdicts, [0, 0, 2, 0]);
    assert_eq!(after(K_UNTIL, &[quiet_at_3, false_at_2]).verdicts, [0, 0, 2, 0]);
}

#[test]
fn p_or_not_p_is_blank_on_a_busy_minute() {
    // Line 0: mark 0. Line 1: not line 0. Line 2, a rule: line 0 or line 1.
    let policy = &[1, 1, 1, 0, 3, 0x01, 1, 0x01, 2, 0x25, 3, 1];
    assert_eq!(after(policy, &[&[0x04, 0x01, 0x00]]).verdicts, [0]);
    assert_eq!(after(policy, &[&[0x0C, 0x01, 0x00, 0x01, 0x00, 0x00, 0x00, 0x00]]).verdicts, [1]);
}

#[test]
fn a_since_does_not_test_its_first_operand_at_the_second_ones_minute() {
    // Line 0: mark 0. Line 1: mark 1. Line 2, a rule: mark 0 since mark 1 in the last minute.
    let policy = &[2, 1, 2, 0, 3, 0x01, 1, 0x03, 1, 1, 0x35, 4, 1, 1, 0];
    // Minute 0: mark 0 false, mark 1 true. Minute 1: mark 0 true, mark 1 false.
    let messages: [&[u8]; 2] = [&[0x0C, 1, 0, 3, 0, 0, 0, 0b10], &[0x0E, 1, 0, 2, 0, 3, 0, 0, 0, 0b01]];
    assert_eq!(after(policy, &messages).verdicts, [1, 1]);
}

#[test]
fn quiet_minutes_are_passed_over() {
    // Line 0: mark 0. Line 1: mark 1. Line 2, a rule: mark 0 since, or until, mark 1 within two minutes.
    let since = &[2, 1, 3, 0, 3, 0x01, 1, 0x03, 1, 1, 0x35, 4, 1, 2, 0];
    let until = &[2, 1, 3, 0, 3, 0x01, 1, 0x03, 1, 1, 0x35, 5, 1, 2, 0];
    // Minute 1 is quiet: the count is 1 at minutes 0 and 1. Nothing is known of mark 0 there.
    let mark_1_then_0: [&[u8]; 2] = [&[0x0C, 1, 0, 3, 0, 0, 0, 0b10], &[0x0E, 2, 0, 2, 0, 3, 0, 0, 0, 0b01]];
    let mark_0_then_1: [&[u8]; 2] = [&[0x0C, 1, 0, 3, 0, 0, 0, 0b01], &[0x0E, 2, 0, 2, 0, 3, 0, 0, 0, 0b10]];
    assert_eq!(after(since, &mark_1_then_0).verdicts, [1, 0, 1]);
    assert_eq!(after(until, &mark_0_then_1).verdicts, [1, 0, 1]);
}

#[test]
fn a_full_run_of_counts_means_busy_minutes() {
    // The rule is true everywhere.
    let policy = &[1, 1, 3, 0, 1, 0x20];
    // "A mixer lost two slips at minutes 0 and 1, then reported count 3 at minute 2."
    assert_eq!(after(policy, &[&[0x06, 2, 0, 3, 0]]).verdicts, [1, 1, 1]);
    assert_eq!(after(policy, &[&[0x16, 3, 0, 3, 0]]).verdicts, [1, 1, 1]);
    // An alive at minute 2 with count 2: minutes 0 and 1 are busy in every trace.
    assert_eq!(after(policy, &[&[0x16, 2, 0, 2, 0]]).verdicts, [1, 1, 0]);
    // With count 1 either of them may be quiet, until one is known.
    assert_eq!(after(policy, &[&[0x16, 2, 0, 1, 0]]).verdicts, [0, 0, 0]);
    assert_eq!(after(policy, &[&[0x16, 2, 0, 1, 0], &[0x04, 1, 0]]).verdicts, [1, 0, 0]);
}

#[test]
fn lookups() {
    let verdicts = after(K, &[A, B, D]).verdicts;
    let shown = |minute| lookup(K, &verdicts, 0, minute);
    assert_eq!(shown(0), Look::Verdict(Verdict::Violated));
    assert_eq!(shown(1), Look::Verdict(Verdict::Unknown));
    assert_eq!(shown(2), Look::Verdict(Verdict::Satisfied));
    let off = Look::Refused(Refusal { number: OUT_OF_RANGE, place: 0 });
    assert_eq!(shown(4), off);
    assert_eq!(lookup(K, &verdicts, 1, 0), off);
    assert_eq!(lookup(K, &[3, 255, 1, 2], 0, 0), Look::Verdict(Verdict::Unknown));
    assert_eq!(lookup(K, &[3, 255, 1, 2], 0, 1), Look::Verdict(Verdict::Unknown));
}

/// A standard input of the printing program.
fn input(policy: &[u8], messages: &[&[u8]]) -> Vec<u8> {
    let mut input = (policy.len() as u16).to_le_bytes().to_vec();
    input.extend(policy);
    for message in messages {
        input.push(message.len() as u8);
        input.extend(*message);
    }
    input
}

fn printed(input: &[u8]) -> String {
    run(input).text
}

#[test]
fn the_printing_example() {
    assert_eq!(printed(&input(K, &[A, B, D])), "0 0 broken\n2 0 kept\n3 0 kept\ntaken 3 refused 0\n");
    assert_eq!(printed(&input(K, &[])), "taken 0 refused 0\n");
    assert_eq!(printed(&input(K, &[A, &[], &[0x00], A])), "0 0 broken\ntaken 2 refused 2\n");
}

#[test]
fn printing_goes_by_minute_and_then_by_rule() {
    // Two rules, true and not true; component 0 observes at minutes 0 and 1.
    let policy = &[1, 1, 2, 0, 2, 0x20, 0x21, 2];
    let messages: [&[u8]; 2] = [&[0x04, 1, 0], &[0x06, 1, 0, 2, 0]];
    let expected = "0 0 kept\n0 1 broken\n1 0 kept\n1 1 broken\ntaken 2 refused 0\n";
    assert_eq!(printed(&input(policy, &messages)), expected);
}

#[test]
fn printing_with_cut_and_refused_input() {
    assert_eq!(printed(&[]), "card refused 1 at 0\n");
    assert_eq!(printed(&[0x0D]), "card refused 1 at 0\n");
    assert_eq!(printed(&[0x0D, 0x00]), "card refused 1 at 0\n");
    assert_eq!(printed(&[0x0D, 0x00, 0x01, 0x01, 0x04]), "card refused 1 at 3\n");
    assert_eq!(printed(&[0x05, 0x02]), "card refused 1 at 0\n");
    assert_eq!(printed(&[0x06, 0x02]), "card refused 1 at 517\n");
    assert_eq!(printed(&[0xFF, 0xFF, 0x01]), "card refused 1 at 517\n");
    assert_eq!(printed(&input(&[0x00; 5], &[])), "card refused 2 at 0\n");
    let whole = input(K, &[A, B, D]);
    assert_eq!(printed(&whole[..whole.len() - 1]), "0 0 broken\n2 0 kept\ntaken 2 refused 1\n");
    assert_eq!(printed(&whole[..whole.len() - 5]), "0 0 broken\n2 0 kept\ntaken 2 refused 1\n");
    assert_eq!(printed(&whole[..whole.len() - 6]), "0 0 broken\n2 0 kept\ntaken 2 refused 0\n");
}

#[test]
fn what_is_refused_has_its_number_and_its_start() {
    let refused = |input: &[u8]| -> Vec<(Option<usize>, usize, u8)> {
        run(input).refused.iter().map(|refused| (refused.message, refused.start, refused.refusal.number)).collect()
    };
    // The policy's length and its 13 bytes, A after its length byte, a length byte.
    assert_eq!(refused(&input(K, &[A, &[], A, &[0x00]])), [(Some(1), 25, 7), (Some(3), 35, 8)]);
    assert_eq!(refused(&[0x0D]), [(None, 1, 1)]);
    assert_eq!(refused(&input(&[0x00; 5], &[])), [(None, 2, 2)]);
}
