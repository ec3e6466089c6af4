//! "One record, one card": a state whose origin or extent is not what opening the lent policy writes is refused with 12,
//! and lists of calls in which policies are swapped at will.

use conformance::inputs::{self, Size};
use conformance::rounds::{self, Seen};
use conformance::{archive, open, receive, receive_packet};
use oracle::generate::{self, Call, Kind, Random};
use oracle::knowledge::origin_of;
use oracle::policy::{self, Policy, MOST_BYTES};
use oracle::refusal::{BUFFER_SIZE, OTHER_POLICY};
use oracle::{Answer, Buffers, PacketAnswer, Refusal};

/// An alive message that every sound state takes.
const ALIVE: &[u8] = &[0x10];

/// A state of the policy, opened and with some knowledge, which is sound or, once in two times, not. Both sheets hold
/// anything.
fn state(random: &mut Random, policy: &Policy) -> (Vec<u8>, Buffers) {
    let bytes = generate::encode_policy(policy);
    let mut buffers = inputs::filled_buffers(random, policy);
    assert_eq!(open(&bytes, &mut buffers), Answer::Done);
    let Buffers { origin, extent, .. } = buffers.clone();
    let trace = inputs::trace(random, policy, 8);
    generate::sound_knowledge(random, policy, &trace, &mut buffers);
    assert!(buffers.origin == origin && buffers.extent == extent, "not what opening {bytes:?} writes");
    inputs::fill_sheets(random, &mut buffers);
    if random.once_in(2) {
        buffers.numbers[0] = 1;
    }
    (bytes, buffers)
}

/// Every call that is lent a state turns it away with 12, on both sides, and changes nothing.
fn refused(policy: &[u8], buffers: &mut Buffers, seen: &mut Seen) {
    let refusal = Refusal { number: OTHER_POLICY, place: 0 };
    let answer = receive(policy, ALIVE, buffers);
    assert_eq!(answer, Answer::Refused(refusal), "{policy:?} {:?} {}", buffers.origin, buffers.extent);
    seen.answer("receive", answer);
    for packet in [&[][..], &[ALIVE, ALIVE].concat()] {
        let answer = receive_packet(policy, packet, buffers);
        let none = PacketAnswer { taken: 0, refusal: Some(refusal) };
        assert_eq!(answer, none, "{policy:?} {:?} {}", buffers.origin, buffers.extent);
        seen.packet(packet, answer);
    }
}

/// What the state is turned away with where its origin and its extent are right: 6 or nothing.
fn own(policy: &[u8], mut buffers: Buffers, seen: &mut Seen) {
    let unsound = buffers.numbers[0] == 1;
    let answer = receive(policy, ALIVE, &mut buffers);
    assert_eq!(matches!(answer, Answer::Received(_)), !unsound, "{policy:?}");
    seen.one(if unsound { "own and unsound" } else { "own and accepted" });
}

/// Runs jobs on policies of every size, as many of each.
fn every_size(seed: u64, times: usize, job: impl Fn(&mut Random, &Policy, &mut Seen) + Sync) -> Seen {
    rounds::run(seed, times * Size::ALL.len(), |number, random, seen| {
        let policy = inputs::policy(random, Size::ALL[number % Size::ALL.len()]);
        job(random, &policy, seen);
    })
}

fn refused_by_every_call(seen: &Seen, times: usize) {
    for call in ["receive", "packet", "empty packet"] {
        seen.at_least(times, &format!("{call} refused 12"));
    }
}

/// One bit of each of the 517 bytes changed, and the whole byte.
#[test]
fn every_byte_of_the_origin() {
    let seen = every_size(9_000_000, 4, |random, policy, seen| {
        let (bytes, mut buffers) = state(random, policy);
        for place in 0..MOST_BYTES {
            let right = buffers.origin[place];
            for change in [1 << random.below(8), random.between(1, 255)] {
                buffers.origin[place] = right ^ change as u8;
                refused(&bytes, &mut buffers, seen);
            }
            buffers.origin[place] = right;
            seen.one(if place < bytes.len() { "byte of the policy" } else { "byte after the policy" });
        }
        own(&bytes, buffers, seen);
    });
    refused_by_every_call(&seen, 20_000);
    seen.at_least(1_500, "byte of the policy");
    seen.at_least(3_000, "byte after the policy");
    seen.at_least(4, "own and unsound");
    seen.at_least(4, "own and accepted");
}

/// Every bit of the extent changed, extents up to and past 517, and under tiny policies every extent.
#[test]
fn every_extent() {
    let seen = every_size(9_100_000, 2, |random, policy, seen| {
        let (bytes, mut buffers) = state(random, policy);
        let right = buffers.extent;
        let mut extents: Vec<u16> = (0..16).map(|bit| right ^ 1 << bit).collect();
        extents.extend(0..=MOST_BYTES as u16 + 100);
        extents.extend([u16::MAX, u16::MAX - 1, right.wrapping_neg(), right + 1024]);
        if policy.minutes < 4 {
            extents.extend(0..=u16::MAX);
        }
        for extent in extents.into_iter().filter(|extent| *extent != right) {
            buffers.extent = extent;
            refused(&bytes, &mut buffers, seen);
            seen.one(if usize::from(extent) > MOST_BYTES { "above 517" } else { "up to 517" });
        }
        buffers.extent = right;
        own(&bytes, buffers, seen);
    });
    refused_by_every_call(&seen, 50_000);
    seen.at_least(50_000, "above 517");
    seen.at_least(5_000, "up to 517");
}

/// Origin and extent agree, but are those of the policy's first bytes, or of the policy and bytes after it.
#[test]
fn the_policy_cut_or_followed_by_bytes() {
    let seen = every_size(9_200_000, 4, |random, policy, seen| {
        let (bytes, mut buffers) = state(random, policy);
        for length in (0..=MOST_BYTES).filter(|length| *length != bytes.len()) {
            let mut stored = bytes.clone();
            stored.resize(length, random.below(2) as u8);
            (buffers.origin, buffers.extent) = origin_of(&stored);
            refused(&bytes, &mut buffers, seen);
        }
    });
    refused_by_every_call(&seen, 10_000);
}

/// A buffer of another size is 5, whatever the origin holds.
#[test]
fn origins_of_every_length() {
    let seen = every_size(9_300_000, 2, |random, policy, seen| {
        let (bytes, buffers) = state(random, policy);
        let wrong = Refusal { number: BUFFER_SIZE, place: 0 };
        for length in (0..=MOST_BYTES + 20).filter(|length| *length != MOST_BYTES) {
            let mut buffers = buffers.clone();
            buffers.origin.resize(length, 0);
            if random.once_in(2) {
                buffers.extent = length as u16;
            }
            for answer in [open(&bytes, &mut buffers), receive(&bytes, ALIVE, &mut buffers)] {
                assert_eq!(answer, Answer::Refused(wrong), "{length} {bytes:?}");
            }
            let answer = receive_packet(&bytes, &[], &mut buffers);
            assert_eq!(answer, PacketAnswer { taken: 0, refusal: Some(wrong) }, "{length} {bytes:?}");
            seen.one("refused 5");
        }
    });
    seen.at_least(5_000, "refused 5");
}

/// What a call answers.
#[derive(Debug, PartialEq)]
enum Given {
    Alone(Answer),
    Packet(PacketAnswer),
}

impl Given {
    /// Why it was turned away, or why one of its messages was.
    fn refused(&self) -> Option<u8> {
        match self {
            Given::Alone(Answer::Refused(refusal)) => Some(refusal.number),
            Given::Alone(_) => None,
            Given::Packet(answer) => answer.refusal.map(|refusal| refusal.number),
        }
    }
}

/// The call on both sides.
fn given(call: &Call, buffers: &mut Buffers, seen: &mut Seen) -> Given {
    let Call { policy, kind } = call;
    match kind {
        Kind::ReceivePacket(packet) => {
            let answer = receive_packet(policy, packet, buffers);
            seen.packet(packet, answer);
            Given::Packet(answer)
        }
        Kind::Open => {
            let answer = open(policy, buffers);
            seen.answer("open", answer);
            Given::Alone(answer)
        }
        Kind::Receive(message) => {
            let answer = receive(policy, message, buffers);
            seen.answer("receive", answer);
            Given::Alone(answer)
        }
    }
}

/// What each job does: how many lists on policies of which size, the most others to swap for, and the calls of a list.
const KINDS: [(Size, usize, usize, usize); 6] = [
    (Size::Tiny, 400, 5, 40),
    (Size::Small, 300, 4, 40),
    (Size::Medium, 40, 3, 30),
    (Size::Wide, 4, 3, 20),
    (Size::Long, 4, 3, 20),
    (Size::Largest, 1, 2, 10),
];

/// Openings, takes and packets from buffers that hold anything, each call lent a policy at will: archive and oracle agree,
/// and a state is let past 12 exactly when the last opening that was done was under the policy that is lent. The
/// buffers are of the sizes of the first policy.
#[test]
fn policies_swapped_at_will() {
    let seen = rounds::run(9_400_000, 6 * KINDS.len(), |number, random, seen| {
        let (size, lists, others, calls) = KINDS[number % KINDS.len()];
        for _ in 0..lists {
            let policy = inputs::policy(random, size);
            let count = random.between(1, others);
            let policies = generate::swaps(random, &policy, count);
            let calls = generate::calls(random, &policies, calls);
            list(inputs::filled_buffers(random, &policy), &calls, seen);
            seen.add("largest lists", usize::from(inputs::is_largest(&policy)));
        }
    });
    for number in [1, 2, 3, 5, 12] {
        seen.at_least(500, &format!("receive refused {number}"));
        seen.at_least(100, &format!("packet refused {number}"));
    }
    for what in ["open done", "receive accepted", "packet whole", "never opened", "foreign", "own", "opened another"] {
        seen.at_least(2_000, what);
    }
    for number in 7..=9 {
        seen.at_least(200, &format!("receive refused {number}"));
    }
    for number in 1..=5 {
        seen.at_least(50, &format!("open refused {number}"));
    }
    seen.at_least(200, "empty packet refused 12");
    seen.at_least(200, "empty packet whole");
    seen.at_least(6, "largest lists");
}

fn list(mut buffers: Buffers, calls: &[Call], seen: &mut Seen) {
    let mut opened: Option<&[u8]> = None;
    for call in calls {
        let given = given(call, &mut buffers, seen);
        if let Kind::Open = call.kind {
            if given.refused().is_none() {
                seen.add("opened another", usize::from(opened.is_some_and(|before| before != call.policy)));
                opened = Some(&call.policy);
            }
            continue;
        }
        let own = opened == Some(&call.policy);
        let past = !matches!(given.refused(), Some(1..=5 | OTHER_POLICY));
        assert_eq!(past, own, "{given:?}\n{call:?}\nopened {opened:?}");
        seen.one(match opened {
            None => "never opened",
            Some(_) if own => "own",
            Some(_) => "foreign",
        });
        seen.add("foreign of the same sizes", usize::from(given.refused() == Some(OTHER_POLICY)));
    }
    let (origin, extent) = opened.map_or((buffers.origin.clone(), buffers.extent), origin_of);
    assert!(buffers.origin == origin && buffers.extent == extent, "not as the last opening left them: {opened:?}");
}

/// What each job does on the archive alone: how many lists on policies of which size, and the calls of a list.
const PAIRS: [(Size, usize, usize); 6] = [
    (Size::Tiny, 500, 40),
    (Size::Small, 500, 60),
    (Size::Medium, 100, 60),
    (Size::Wide, 10, 60),
    (Size::Long, 10, 60),
    (Size::Largest, 2, 40),
];

/// On the archive alone: a list in which states are lent with other policies too, and the same without these takes and
/// packets. All others answer the same, and both lists leave the same in every cell.
#[test]
fn takes_under_another_policy_change_nothing() {
    let seen = rounds::run(9_500_000, 6 * PAIRS.len(), |number, random, seen| {
        let (size, lists, calls) = PAIRS[number % PAIRS.len()];
        for _ in 0..lists {
            let policy = inputs::policy(random, size);
            let policies = generate::swaps(random, &policy, 3);
            let calls = generate::calls(random, &policies, calls);
            pair(random, &policy, &calls, seen);
            seen.add("largest pairs", usize::from(inputs::is_largest(&policy)));
        }
    });
    for what in ["pairs", "foreign", "foreign 12", "own", "accepted"] {
        seen.at_least(5_000, what);
    }
    seen.at_least(10, "largest pairs");
}

fn pair(random: &mut Random, policy: &Policy, calls: &[Call], seen: &mut Seen) {
    let before = inputs::filled_buffers(random, policy);
    let (mut with, mut without) = (before.clone(), before);
    let mut opened: Option<&[u8]> = None;
    for call in calls {
        let given = given_by_archive(call, &mut with);
        let opening = matches!(call.kind, Kind::Open);
        if opening && given.refused().is_none() {
            opened = Some(&call.policy);
        }
        if opening || opened == Some(&call.policy) {
            let alone = given_by_archive(call, &mut without);
            assert_eq!(given, alone, "{call:?}\nin {calls:?}");
            seen.one("own");
            seen.add("accepted", usize::from(given.refused().is_none()));
        } else {
            seen.one("foreign");
            seen.add("foreign 12", usize::from(given.refused() == Some(OTHER_POLICY)));
        }
    }
    assert!(with == without, "two lists end differently: {calls:?}");
    seen.one("pairs");
}

fn given_by_archive(call: &Call, buffers: &mut Buffers) -> Given {
    let Call { policy, kind } = call;
    match kind {
        Kind::Open => Given::Alone(archive::open(policy, buffers)),
        Kind::Receive(message) => Given::Alone(archive::receive(policy, message, buffers)),
        Kind::ReceivePacket(packet) => Given::Packet(archive::receive_packet(policy, packet, buffers)),
    }
}

/// Every two policies of some: a state that was opened under one, lent with the other, and opened again under that.
#[test]
fn every_two_policies() {
    let seen = every_size(9_600_000, 6, |random, first, seen| {
        let others = if first.minutes < 100 { 3 } else { 1 };
        let mut policies = generate::swaps(random, first, others);
        policies.retain(|bytes| policy::read(bytes).is_ok_and(|read| Buffers::sized(first).fit(&read)));
        for one in &policies {
            for other in policies.iter().filter(|other| *other != one) {
                let mut buffers = inputs::filled_buffers(random, first);
                assert_eq!(open(one, &mut buffers), Answer::Done);
                refused(other, &mut buffers, seen);
                assert!(matches!(receive(one, ALIVE, &mut buffers), Answer::Received(_)), "{one:?}");
                assert_eq!(open(other, &mut buffers), Answer::Done);
                refused(one, &mut buffers, seen);
                assert!(matches!(receive(other, ALIVE, &mut buffers), Answer::Received(_)), "{other:?}");
                seen.one("pairs");
                seen.add("of one length", usize::from(one.len() == other.len()));
            }
        }
    });
    refused_by_every_call(&seen, 100);
    seen.at_least(50, "pairs");
    seen.at_least(20, "of one length");
}
