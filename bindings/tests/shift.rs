//! A shift that owns its memory: sizes, takes and looks are those of the calls over lent memory.
#![cfg(feature = "alloc")]

use zankezurt::{
    lookup, open, receive, receive_packet, Packet, Reason, Refusal, Shift, Sizes, State, Verdict, POLICY_LENGTH,
};

/// Rule 0: mark 0 at some time in the last 2 minutes. Rule 1: mark 1. Rule 2: mark 0 within the next minute. The lines are of many
/// lengths, from 1 to 8 bytes.
const POLICY: [u8; 33] = [
    0x02, 0x01, 0x04, 0x00, 0x07, // 2 marks, 1 station, 4 minutes, 7 lines
    0x00, // 0: true
    0x01, 0x01, // 1: mark 0
    0x35, 0x04, 0x01, 0x02, 0x00, // 2: line 0 since line 1, up to 2
    0x23, 0x01, 0x01, // 3: mark 1
    0x35, 0x05, 0x01, 0x01, 0x00, // 4: line 0 until line 1, up to 1
    0x07, 0x03, 0x01, 0x03, // 5: line 1 or line 3
    0x1F, 0x04, 0x01, 0x03, 0x01, 0x00, 0x02, 0x00, // 6: line 1 since line 3, 1 to 2
];
const LINES: usize = 7;

const MESSAGES: [&[u8]; 4] = [
    &[0x0C, 0x01, 0x00, 0x01, 0x00, 0x00, 0x00, 0x00],
    &[0x0E, 0x02, 0x00, 0x02, 0x00, 0x03, 0x00, 0x00, 0x00, 0x01],
    &[0x06, 0x03, 0x00, 0x03, 0x00],
    &[0x00],
];

/// Memory to lend, filled with anything.
struct Memory {
    numbers: Vec<u16>,
    facts: Vec<u32>,
    valuation: Vec<u8>,
    verdicts: Vec<u8>,
    origin: Vec<u8>,
    extent: u16,
}

impl Memory {
    fn new(sizes: Sizes) -> Memory {
        Memory {
            numbers: vec![7; sizes.numbers_length()],
            facts: vec![7; sizes.facts_length()],
            valuation: vec![7; sizes.valuation_length()],
            verdicts: vec![7; sizes.verdicts_length()],
            origin: vec![7; POLICY_LENGTH],
            extent: 7,
        }
    }

    fn lent(&mut self) -> State<'_> {
        let Memory { numbers, facts, valuation, verdicts, origin, extent } = self;
        State { numbers, facts, valuation, verdicts, origin, extent }
    }
}

#[test]
fn sizes_of_a_policy() {
    let expected = Sizes { propositions: 2, components: 1, minutes: 4, subformulas: LINES, rules: 3 };
    assert_eq!(Sizes::of(&POLICY), Ok(expected));
}

#[test]
fn a_policy_that_is_cut_is_refused_by_its_own_reason() {
    for length in 0..POLICY.len() {
        let refusal = Shift::open(&POLICY[..length]).unwrap_err();
        assert_eq!((refusal.reason, refusal.place), (Reason::TruncatedPolicy, length));
    }
}

/// A heading that names far more minutes than there may be is refused before anything is allocated for them.
#[test]
fn a_heading_out_of_range_is_refused() {
    let mut policy = POLICY;
    policy[3] = 0xFF;
    let refusal = Shift::open(&policy).unwrap_err();
    assert_eq!((refusal.reason, refusal.place), (Reason::BadHeading, 2));
}

#[test]
fn takes_and_looks_are_those_of_lent_memory() {
    let sizes = Sizes::of(&POLICY).unwrap();
    let mut memory = Memory::new(sizes);
    let mut state = memory.lent();
    open(&POLICY, &mut state).unwrap();
    let mut shift = Shift::open(&POLICY).unwrap();

    for message in MESSAGES {
        let lent = receive(&POLICY, message, &mut state);
        let standing = shift.receive(message);
        assert_eq!(standing, lent);
        assert_eq!(shift.verdicts().collect::<Vec<_>>(), looked_up(state.verdicts, sizes));
        assert!(standing.is_err() || standing == Ok(shift.verdicts().count()));
        assert_eq!(shift.lookup(1, 2), lookup(&POLICY, state.verdicts, 1, 2));
    }
    assert!(shift.verdicts().count() > 0);
    let packet = MESSAGES.concat();
    let lent = receive_packet(&POLICY, &packet, &mut state);
    assert_eq!(shift.receive_packet(&packet), lent);
    assert_eq!(shift.lookup(3, 0).unwrap_err().reason, Reason::OutOfRange);
}

/// A state is its policy's until it is opened under another one.
#[test]
fn a_state_is_refused_under_another_policy() {
    let mut other = POLICY;
    other[11] = 0x03; // of line 2: up to 3 minutes
    let mut memory = Memory::new(Sizes::of(&POLICY).unwrap());
    let refusal = Refusal { reason: Reason::OtherPolicy, place: 0 };
    for [own, another] in [[&POLICY, &other], [&other, &POLICY]] {
        let mut state = memory.lent();
        assert_eq!(receive(own, MESSAGES[0], &mut state), Err(refusal));
        open(own, &mut state).unwrap();
        assert_eq!((&state.origin[..own.len()], usize::from(*state.extent)), (&own[..], own.len()));
        assert_eq!(receive(another, MESSAGES[0], &mut state), Err(refusal));
        let packet = receive_packet(another, &MESSAGES.concat(), &mut state);
        assert_eq!(packet, Packet { taken: 0, refusal: Some(refusal) });
        assert!(receive(own, MESSAGES[0], &mut state).is_ok());
    }
}

/// The first three messages are taken, and the last is refused.
#[test]
fn a_packet_cut_at_every_byte_takes_what_is_whole() {
    let packet = MESSAGES.concat();
    let refused = |length| match length {
        0 | 8 | 18 | 23 => None,
        24 => Some(Refusal { reason: Reason::BadMessage, place: 23 }),
        _ => Some(Refusal { reason: Reason::TruncatedMessage, place: length }),
    };
    for length in 0..=packet.len() {
        let mut shift = Shift::open(&POLICY).unwrap();
        let mut one_by_one = shift.clone();
        let Packet { taken, refusal } = shift.receive_packet(&packet[..length]);
        assert_eq!(refusal, refused(length));
        assert_eq!(taken, [8, 18, 23].iter().filter(|end| **end <= length).count());
        assert!(MESSAGES[..taken].iter().all(|message| one_by_one.receive(message).is_ok()));
        assert_eq!(shift, one_by_one);
    }
}

/// Every verdict that stands, by the call, minute by minute.
fn looked_up(verdicts: &[u8], sizes: Sizes) -> Vec<(usize, usize, Verdict)> {
    let cells = (0..sizes.minutes).flat_map(|minute| (0..sizes.rules).map(move |rule| (minute, rule)));
    let shown = cells.map(|(minute, rule)| (minute, rule, lookup(&POLICY, verdicts, rule, minute).unwrap()));
    shown.filter(|&(_, _, verdict)| verdict != Verdict::Unknown).collect()
}

/// One lock around a shift is all that two threads need.
#[test]
fn a_shift_may_go_to_another_thread() {
    fn may_go<T: Send + Sync>(_: &T) {}
    may_go(&Shift::open(&POLICY).unwrap());
}
