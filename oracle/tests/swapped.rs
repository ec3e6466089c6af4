//! "One record, one card": 12, other card, when the stored length or any of the 517 bytes isn't what opening the lent
//! policy writes. After 5, before 6, and in the calls that are lent a record.

use oracle::generate::{self, Call, Kind, Random, MEDIUM, SMALL, TINY};
use oracle::policy::{self, MOST_BYTES};
use oracle::reading::Verdict;
use oracle::refusal::*;
use oracle::{lookup, open, receive, receive_packet, Answer, Buffers, Look, PacketAnswer, Refusal};

/// One proposition, one component, three minutes, two lines: true, and true as the rule.
const P: &[u8] = &[1, 1, 3, 0, 2, 0x00, 0x20];
/// The rule is proposition 0: the same but for the last byte, which is followed by one more.
const Q: &[u8] = &[1, 1, 3, 0, 2, 0x00, 0x21, 1];
/// With a second proposition, which no buffer's size tells: the same but for the first byte.
const TWO: &[u8] = &[2, 1, 3, 0, 2, 0x00, 0x20];
/// The first line is the rule: the same but for two bytes in another order.
const FIRST: &[u8] = &[1, 1, 3, 0, 2, 0x20, 0x00];
/// With four minutes.
const LONGER: &[u8] = &[1, 1, 4, 0, 2, 0x00, 0x20];

/// An alive that every sound record takes, and that changes no number and no fact.
const ALIVE: &[u8] = &[0x10];
/// An observation at minute 0.
const OBSERVATION: &[u8] = &[0x04, 1, 0];

fn sized(policy: &[u8]) -> Buffers {
    Buffers::sized(&policy::read(policy).unwrap())
}

fn fresh(policy: &[u8]) -> Buffers {
    let mut buffers = sized(policy);
    assert_eq!(open(policy, &mut buffers), Answer::Done);
    buffers
}

/// The refusal of every call that is lent a record, which all refuse alike, at place 0, and change nothing.
fn refused(policy: &[u8], buffers: &Buffers) -> u8 {
    let mut after = buffers.clone();
    let Answer::Refused(refusal) = receive(policy, OBSERVATION, &mut after) else { panic!("accepted") };
    assert_eq!((refusal.place, &after), (0, buffers));
    for message in [&[][..], &[0x00], &[0x04, 2, 0], ALIVE] {
        assert_eq!((receive(policy, message, &mut after), &after), (Answer::Refused(refusal), buffers));
    }
    let none = PacketAnswer { taken: 0, refusal: Some(refusal) };
    for packet in [&[][..], ALIVE, &[0x10, 0x10], &[0x10, 0x00], &[0x04]] {
        assert_eq!((receive_packet(policy, packet, &mut after), &after), (none, buffers));
    }
    refusal.number
}

/// The calls that are lent a record let it past 12 and 6.
fn taken(policy: &[u8], buffers: &Buffers) {
    let mut after = buffers.clone();
    assert!(matches!(receive(policy, ALIVE, &mut after), Answer::Received(_)));
    assert_eq!((after.extent, &after.origin), (buffers.extent, &buffers.origin));
    let packet = receive_packet(policy, &[ALIVE, ALIVE].concat(), &mut after);
    assert_eq!(packet, PacketAnswer { taken: 2, refusal: None });
    assert_eq!((after.extent, &after.origin), (buffers.extent, &buffers.origin));
}

#[test]
fn the_opening_writes_the_policy_then_zeros_and_its_length() {
    for policy in [P, Q, TWO, FIRST, LONGER] {
        let buffers = fresh(policy);
        assert_eq!(buffers.origin.len(), 517);
        assert_eq!((&buffers.origin[..policy.len()], buffers.extent), (policy, policy.len() as u16));
        assert!(buffers.origin[policy.len()..].iter().all(|byte| *byte == 0));
        taken(policy, &buffers);
    }
}

#[test]
fn another_policy_of_the_same_sizes_is_12() {
    for one in [P, Q, TWO, FIRST] {
        for other in [P, Q, TWO, FIRST] {
            if one == other {
                taken(one, &fresh(one));
            } else {
                assert_eq!(refused(other, &fresh(one)), OTHER_POLICY, "{one:?} {other:?}");
            }
        }
    }
}

/// Buffers of another size first, and before them bytes that are no policy.
#[test]
fn another_policy_of_other_sizes_is_5() {
    assert_eq!(refused(LONGER, &fresh(P)), BUFFER_SIZE);
    assert_eq!(refused(P, &fresh(LONGER)), BUFFER_SIZE);
    assert_eq!(refused(&[1, 1, 3, 0, 2, 0x00, 0x00], &fresh(P)), RULE_COUNT);
}

/// "Whatever they held": after a longer policy nothing of it is left.
#[test]
fn opening_another_policy_replaces_both() {
    let mut buffers = fresh(Q);
    for (before, policy) in [(Q, P), (P, Q), (Q, TWO), (TWO, P), (P, FIRST), (FIRST, FIRST)] {
        assert!(matches!(receive(before, OBSERVATION, &mut buffers), Answer::Received(_)));
        assert_eq!(open(policy, &mut buffers), Answer::Done);
        assert_eq!(buffers, fresh(policy));
    }
    buffers.origin.fill(0xFF);
    buffers.extent = 65535;
    assert_eq!(open(P, &mut buffers), Answer::Done);
    assert_eq!(buffers, fresh(P));
}

/// A refused opening leaves the record with the policy it had.
#[test]
fn a_refused_opening_keeps_both() {
    let before = fresh(P);
    for policy in [LONGER, &P[..6], &[P, &[0]].concat(), &[1, 1, 3, 0, 2, 0x00, 0x00]] {
        let mut buffers = before.clone();
        assert!(matches!(open(policy, &mut buffers), Answer::Refused(_)));
        assert_eq!(buffers, before);
        taken(P, &buffers);
    }
}

/// No policy is the beginning of another: the heading tells how many lines there are. What is stored may be.
#[test]
fn the_beginning_of_a_policy_is_12() {
    assert_eq!(policy::read(&Q[..7]), Err(Refusal { number: TRUNCATED_POLICY, place: 7 }));
    assert_eq!(policy::read(&[P, &[0]].concat()), Err(Refusal { number: TRUNCATED_POLICY, place: 7 }));
    for length in 0..Q.len() {
        let mut buffers = fresh(Q);
        buffers.origin[length..].fill(0);
        assert_eq!(refused(Q, &buffers), OTHER_POLICY, "{length}");
        buffers.extent = length as u16;
        assert_eq!(refused(Q, &buffers), OTHER_POLICY, "{length}");
    }
}

/// The bytes of P end in no 0, those of FIRST do: only the length tells a 0 of the policy from one after it.
#[test]
fn every_other_length_is_12() {
    for policy in [P, FIRST] {
        let mut buffers = fresh(policy);
        for extent in 0..=u16::MAX {
            buffers.extent = extent;
            if usize::from(extent) == policy.len() {
                taken(policy, &buffers);
            } else if extent < 1_000 || extent.is_power_of_two() || extent == u16::MAX {
                assert_eq!(refused(policy, &buffers), OTHER_POLICY, "{extent}");
            } else {
                let other = Answer::Refused(Refusal { number: OTHER_POLICY, place: 0 });
                assert_eq!(receive(policy, ALIVE, &mut buffers), other, "{extent}");
            }
        }
    }
}

/// The bytes of the policy, and those after it up to the last.
#[test]
fn every_other_byte_is_12() {
    for policy in [P, Q] {
        for place in 0..MOST_BYTES {
            for bit in 0..8 {
                let mut buffers = fresh(policy);
                buffers.origin[place] ^= 1 << bit;
                assert_eq!(refused(policy, &buffers), OTHER_POLICY, "{place} {bit}");
            }
        }
    }
}

#[test]
fn a_record_that_was_never_opened_is_12() {
    assert_eq!(refused(P, &sized(P)), OTHER_POLICY);
    let mut buffers = fresh(P);
    buffers.origin.fill(0);
    buffers.extent = 0;
    assert_eq!(refused(P, &buffers), OTHER_POLICY);
}

/// 5 before 12, also where all that is there is right, and 12 before 6.
#[test]
fn the_place_of_12_in_the_order() {
    for size in [0, 7, 516, 518, 1034] {
        let mut buffers = fresh(P);
        buffers.origin.resize(size, 0);
        assert_eq!(refused(P, &buffers), BUFFER_SIZE, "{size}");
        buffers.extent = size as u16;
        assert_eq!(refused(P, &buffers), BUFFER_SIZE, "{size}");
        let before = buffers.clone();
        assert_eq!(open(P, &mut buffers), Answer::Refused(Refusal { number: BUFFER_SIZE, place: 0 }));
        assert_eq!(buffers, before);
    }
    let mut unsound = fresh(P);
    unsound.numbers[0] = 1;
    assert_eq!(refused(P, &unsound), CORRUPT_KNOWLEDGE);
    let changes: [fn(&mut Buffers); 3] =
        [|buffers| buffers.extent = 8, |buffers| buffers.origin[0] = 2, |buffers| buffers.origin[516] = 1];
    for change in changes {
        let mut buffers = unsound.clone();
        change(&mut buffers);
        assert_eq!(refused(P, &buffers), OTHER_POLICY);
    }
    // Under TWO the record is sound, under P it knows a proposition beyond the policy.
    let mut beyond = fresh(TWO);
    beyond.facts[0] = 2;
    taken(TWO, &beyond);
    assert_eq!(refused(P, &beyond), OTHER_POLICY);
    (beyond.origin, beyond.extent) = (fresh(P).origin, 7);
    assert_eq!(refused(P, &beyond), CORRUPT_KNOWLEDGE);
}

/// A look is lent the verdicts only.
#[test]
fn a_look_asks_for_no_origin() {
    let mut buffers = fresh(P);
    assert_eq!(receive(P, OBSERVATION, &mut buffers), Answer::Received(1));
    for policy in [P, Q, TWO, FIRST] {
        assert_eq!(lookup(policy, &buffers.verdicts, 0, 0), Look::Verdict(Verdict::Satisfied));
    }
}

/// Lists of openings, takes and packets that are lent policies at will. A take is let past 12 exactly when the last
/// opening that was done was under the policy that is lent.
#[test]
fn policies_swapped_at_will() {
    let mut random = Random::new(21);
    let mut seen = [[0; 13]; 2];
    for round in 0..1_500 {
        let limits = [TINY, SMALL, SMALL, MEDIUM][round % 4];
        let policy = generate::policy(&mut random, &limits);
        let policies = generate::swaps(&mut random, &policy, 3);
        let mut buffers = Buffers::sized(&policy);
        let mut opened = None;
        for Call { policy, kind } in generate::calls(&mut random, &policies, 30) {
            let before = buffers.clone();
            let (refusal, kept) = match kind {
                Kind::Open => {
                    if open(&policy, &mut buffers) == Answer::Done {
                        opened = Some(policy);
                    } else {
                        assert_eq!(buffers, before);
                    }
                    continue;
                }
                Kind::Receive(message) => match receive(&policy, &message, &mut buffers) {
                    Answer::Refused(refusal) => (Some(refusal), true),
                    _ => (None, false),
                },
                Kind::ReceivePacket(packet) => {
                    let PacketAnswer { taken, refusal } = receive_packet(&policy, &packet, &mut buffers);
                    (refusal, taken == 0)
                }
            };
            let own = opened.as_ref() == Some(&policy);
            let number = refusal.map_or(0, |refusal| refusal.number);
            assert_eq!(own, !matches!(number, 1..=5 | OTHER_POLICY), "{number} {policy:?} {opened:?}");
            assert!(!kept || buffers == before);
            assert_eq!((buffers.extent, &buffers.origin), (before.extent, &before.origin));
            seen[usize::from(own)][usize::from(number)] += 1;
        }
    }
    let [foreign, own] = seen;
    assert!([0, 7, 8, 9].into_iter().all(|number| own[number] >= 100), "{own:?}");
    assert!([1, 2, 3, 4, 5, 12].into_iter().all(|number| foreign[number] >= 20), "{foreign:?}");
}
