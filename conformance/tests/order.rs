//! Two lists of the same messages of one trace, in any order, repeated, with ill-formed bytes between, through the
//! archive: all are accepted, both end alike in every cell, and what is shown on the way stands and is the trace's.

use conformance::archive;
use conformance::inputs::{self, list, Offer, Size};
use conformance::rounds::{self, Seen};
use oracle::generate::{self, Random};
use oracle::knowledge::origin_of;
use oracle::policy::Policy;
use oracle::reading::{standing, two_valued_verdicts};
use oracle::{Answer, Buffers};

/// What each job does: how many pairs of lists on policies of which size, and the most messages of the trace.
const KINDS: [(Size, usize, usize); 6] = [
    (Size::Tiny, 500, 12),
    (Size::Small, 500, 30),
    (Size::Medium, 100, 60),
    (Size::Wide, 20, 60),
    (Size::Long, 20, 60),
    (Size::Largest, 1, 60),
];

#[test]
fn the_order_of_messages_and_repeats_do_not_matter() {
    let seen = rounds::run(2_000_000, 30 * KINDS.len(), |number, random, seen| {
        let (size, pairs, most) = KINDS[number % KINDS.len()];
        for _ in 0..pairs {
            let policy = inputs::policy(random, size);
            pair(random, &policy, most, seen);
        }
    });
    seen.at_least(20_000, "pairs");
    seen.at_least(20, "largest pairs");
    for what in ["accepted", "refused 7", "refused 8"] {
        seen.at_least(10_000, &format!("receive {what}"));
    }
    seen.at_least(1_000, "kept");
    seen.at_least(1_000, "broken");
}

fn pair(random: &mut Random, policy: &Policy, most: usize, seen: &mut Seen) {
    let most = random.between(0, most);
    let trace = inputs::trace(random, policy, most / 2);
    let messages = inputs::sent(random, policy, &trace, most);
    let verdicts = two_valued_verdicts(policy, &trace);
    let one = list(random, policy, &messages, 2 + messages.len());
    let other = list(random, policy, &messages, 2 + messages.len());
    let end = run(random, policy, &one, &verdicts, seen);
    let other_end = run(random, policy, &other, &verdicts, seen);
    let bytes = generate::encode_policy(policy);
    assert!(end == other_end, "two orders differ\npolicy {bytes:?}\n{:?}\n{:?}", all_bytes(&one), all_bytes(&other));
    seen.verdicts(&end.verdicts);
    seen.one("pairs");
    seen.add("largest pairs", usize::from(inputs::is_largest(policy)));
}

fn all_bytes(list: &[Offer]) -> Vec<&[u8]> {
    list.iter().map(|offer| offer.bytes.as_slice()).collect()
}

/// The buffers after the list, from an opening of buffers that hold anything. What stands after any beginning of the list
/// must stand at its end and be the verdict in the trace; and the state is still of the policy.
fn run(random: &mut Random, policy: &Policy, list: &[Offer], verdicts: &[u8], seen: &mut Seen) -> Buffers {
    let bytes = generate::encode_policy(policy);
    let mut buffers = inputs::filled_buffers(random, policy);
    assert_eq!(archive::open(&bytes, &mut buffers), Answer::Done);
    let (origin, extent) = origin_of(&bytes);
    let mut sheets = vec![buffers.verdicts.clone()];
    for offer in list {
        let answer = take(&bytes, offer, &mut buffers);
        seen.answer("receive", answer);
        sheets.push(buffers.verdicts.clone());
    }
    for sheet in &sheets {
        assert!(stands(sheet, &buffers.verdicts), "a verdict changed\npolicy {bytes:?}\n{:?}", all_bytes(list));
    }
    assert!(stands(&buffers.verdicts, verdicts), "not the trace's verdict\npolicy {bytes:?}\n{:?}", all_bytes(list));
    assert!((&buffers.origin, buffers.extent) == (&origin, extent), "not the policy {bytes:?}\n{:?}", all_bytes(list));
    buffers
}

/// Offers the bytes to the archive: accepted if they are well-formed, else refused with nothing changed.
fn take(policy: &[u8], offer: &Offer, buffers: &mut Buffers) -> Answer {
    let before = buffers.clone();
    let answer = archive::receive(policy, &offer.bytes, buffers);
    match offer.refusal {
        None => assert_eq!(answer, Answer::Received(standing(&buffers.verdicts)), "{:?}", offer.bytes),
        Some(refusal) => {
            assert_eq!(answer, Answer::Refused(refusal), "{:?}", offer.bytes);
            assert!(*buffers == before, "refused and changed: {:?}", offer.bytes);
        }
    }
    answer
}

/// Whether every verdict of the first sheet is in the second.
fn stands(first: &[u8], second: &[u8]) -> bool {
    first.iter().zip(second).all(|(first, second)| *first == 0 || first == second)
}
