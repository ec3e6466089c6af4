//! Packets: archive and oracle agree after every call, and a packet is its takes one by one.

use conformance::inputs::{self, Size};
use conformance::rounds::{self, Seen};
use conformance::{archive, open, receive, receive_packet};
use oracle::generate::{self, Random};
use oracle::policy::Policy;
use oracle::refusal::{BAD_MESSAGE, TRUNCATED_MESSAGE};
use oracle::trace::Trace;
use oracle::{Answer, Buffers, PacketAnswer, Refusal};

/// What each job does: how many lists on policies of which size, and the most messages of a trace in one.
const KINDS: [(Size, usize, usize); 6] = [
    (Size::Tiny, 1000, 20),
    (Size::Small, 500, 30),
    (Size::Medium, 50, 40),
    (Size::Wide, 4, 30),
    (Size::Long, 4, 20),
    (Size::Largest, 1, 6),
];

#[test]
fn lists_of_takes_and_packets() {
    let seen = rounds::run(5_000_000, 8 * KINDS.len(), |number, random, seen| {
        let (size, lists, most) = KINDS[number % KINDS.len()];
        for _ in 0..lists {
            let policy = inputs::policy(random, size);
            let offers = inputs::offers(random, &policy, most);
            list(random, &policy, &offers, seen);
        }
    });
    for what in ["packet whole", "empty packet whole", "packet took none", "packet took one", "packet took many"] {
        seen.at_least(5_000, what);
    }
    for what in ["receive accepted", "kept", "broken"] {
        seen.at_least(3_000, what);
    }
    for number in 7..=9 {
        seen.at_least(500, &format!("receive refused {number}"));
        seen.at_least(500, &format!("packet refused {number}"));
    }
    seen.at_least(8, "largest lists");
}

/// Opens, whatever the buffers hold, and offers the bytes, some of them alone and the others in packets.
fn list(random: &mut Random, policy: &Policy, offers: &[Vec<u8>], seen: &mut Seen) {
    let bytes = generate::encode_policy(policy);
    let mut buffers = inputs::filled_buffers(random, policy);
    seen.answer("open", open(&bytes, &mut buffers));
    let mut rest = offers;
    while !rest.is_empty() {
        let count = random.below(rest.len().min(8) + 1);
        let (some, others) = rest.split_at(count);
        if count == 1 && random.once_in(2) {
            seen.answer("receive", receive(&bytes, &some[0], &mut buffers));
        } else {
            let packet = some.concat();
            seen.packet(&packet, receive_packet(&bytes, &packet, &mut buffers));
        }
        rest = others;
    }
    seen.verdicts(&buffers.verdicts);
    seen.add("largest lists", usize::from(inputs::is_largest(policy)));
}

/// Opened buffers, and anything in both sheets.
fn opened(random: &mut Random, policy: &Policy) -> (Vec<u8>, Buffers) {
    let bytes = generate::encode_policy(policy);
    let mut buffers = inputs::filled_buffers(random, policy);
    assert_eq!(archive::open(&bytes, &mut buffers), Answer::Done);
    inputs::fill_sheets(random, &mut buffers);
    (bytes, buffers)
}

/// How many packets, under policies of which size.
const SIZES: [(Size, usize); 4] = [(Size::Tiny, 200), (Size::Small, 200), (Size::Medium, 10), (Size::Wide, 1)];

/// Messages of one trace, and one that is refused before, between or after them: those before it are taken.
#[test]
fn a_refused_message_in_each_position() {
    let seen = rounds::run(5_200_000, 6 * SIZES.len(), |number, random, seen| {
        let (size, packets) = SIZES[number % SIZES.len()];
        for _ in 0..packets {
            let policy = inputs::policy(random, size);
            let trace = inputs::trace(random, &policy, 3);
            let messages = inputs::sent(random, &policy, &trace, 4);
            (0..=messages.len()).for_each(|position| refused_at(random, &policy, &messages, position, seen));
        }
    });
    for number in [8, 9] {
        for position in ["first", "middle", "last"] {
            seen.at_least(100, &format!("refused {number} {position}"));
        }
    }
}

fn refused_at(random: &mut Random, policy: &Policy, messages: &[Vec<u8>], position: usize, seen: &mut Seen) {
    let (bytes, mut buffers) = opened(random, policy);
    let (before, after) = messages.split_at(position);
    let mut state = buffers.clone();
    for message in before {
        assert!(matches!(archive::receive(&bytes, message, &mut state), Answer::Received(_)), "{message:?}");
    }
    let (refused, number) = refused_message(random, policy, &bytes, &state);
    let start = before.concat().len();
    let packet = [before.concat(), refused, after.concat()].concat();
    let answer = receive_packet(&bytes, &packet, &mut buffers);
    assert_eq!(answer, PacketAnswer { taken: position, refusal: Some(Refusal { number, place: start }) }, "{packet:?}");
    assert!(buffers == state, "not as one by one\npolicy {bytes:?}\npacket {packet:?}");
    let position = if before.is_empty() {
        "first"
    } else if after.is_empty() {
        "last"
    } else {
        "middle"
    };
    seen.one(&format!("refused {number} {position}"));
}

/// A message, neither cut nor followed by bytes, that a single take refuses, and the refusal's number.
fn refused_message(random: &mut Random, policy: &Policy, bytes: &[u8], state: &Buffers) -> (Vec<u8>, u8) {
    loop {
        let other = inputs::trace(random, policy, 3);
        let message = stray_or_sent(random, policy, &other, 2);
        if let Answer::Refused(refusal) = archive::receive(bytes, &message, &mut state.clone()) {
            assert_eq!(refusal.place, 0);
            return (message, refusal.number);
        }
    }
}

/// A message of the trace, and once in so many times a stray one.
fn stray_or_sent(random: &mut Random, policy: &Policy, trace: &Trace, times: usize) -> Vec<u8> {
    if random.once_in(times) {
        return generate::stray_message(random, policy);
    }
    generate::encode_message(&generate::message(random, policy, trace))
}

/// What is whole is taken; a message that is cut has the packet's length as its place.
#[test]
fn packets_cut_at_every_byte() {
    let seen = rounds::run(5_400_000, 6 * SIZES.len(), |number, random, seen| {
        let (size, packets) = SIZES[number % SIZES.len()];
        for _ in 0..packets / 10 + 1 {
            let policy = inputs::policy(random, size);
            let trace = inputs::trace(random, &policy, 3);
            let messages = inputs::sent(random, &policy, &trace, 4);
            let (bytes, buffers) = opened(random, &policy);
            let packet = messages.concat();
            let ends: Vec<usize> = (1..=messages.len()).map(|count| messages[..count].concat().len()).collect();
            for length in 0..=packet.len() {
                let cut = &packet[..length];
                let answer = receive_packet(&bytes, cut, &mut buffers.clone());
                let taken = ends.iter().filter(|end| **end <= length).count();
                let whole = length == 0 || ends.contains(&length);
                let refusal = (!whole).then_some(Refusal { number: TRUNCATED_MESSAGE, place: length });
                assert_eq!(answer, PacketAnswer { taken, refusal }, "{cut:?}");
                seen.packet(cut, answer);
            }
        }
    });
    seen.at_least(100, "empty packet whole");
    for what in ["packet whole", "packet refused 7", "packet took none", "packet took one", "packet took many"] {
        seen.at_least(300, what);
    }
}

/// More messages than 16 bits count, and then one that is refused.
#[test]
fn a_packet_of_very_many_messages() {
    const MANY: usize = 100_000;
    let mut random = Random::new(5_500_000);
    let policy = inputs::policy(&mut random, Size::Tiny);
    let (bytes, mut buffers) = opened(&mut random, &policy);
    let alive = vec![0x10; MANY];
    let refused = Some(Refusal { number: BAD_MESSAGE, place: MANY });
    for (packet, refusal) in [(alive.clone(), None), ([alive, vec![0x00, 0x10]].concat(), refused)] {
        let answer = receive_packet(&bytes, &packet, &mut buffers);
        assert_eq!(answer, PacketAnswer { taken: MANY, refusal });
    }
}

/// What each job does: how many packets under policies of which size, and the most messages in one.
const LONG_PACKETS: [(Size, usize, usize); 6] = [
    (Size::Tiny, 500, 20),
    (Size::Small, 500, 40),
    (Size::Medium, 100, 60),
    (Size::Wide, 20, 60),
    (Size::Long, 20, 60),
    (Size::Largest, 4, 60),
];

/// On the archive alone: the packet, and on a copy of the state each of its messages until one is refused.
#[test]
fn a_packet_is_its_takes_one_by_one() {
    let seen = rounds::run(5_600_000, 12 * LONG_PACKETS.len(), |number, random, seen| {
        let (size, packets, most) = LONG_PACKETS[number % LONG_PACKETS.len()];
        for _ in 0..packets {
            let policy = inputs::policy(random, size);
            let trace = inputs::trace(random, &policy, 8);
            let times = random.pick(&[2, 8, 1_000]);
            let count = random.below(most + 1);
            let messages: Vec<_> = (0..count).map(|_| stray_or_sent(random, &policy, &trace, times)).collect();
            let packet = messages.concat();
            let (bytes, before) = opened(random, &policy);
            let (mut at_once, mut alone) = (before.clone(), before.clone());
            let answer = archive::receive_packet(&bytes, &packet, &mut at_once);
            assert_eq!(answer, one_by_one(&bytes, &messages, &mut alone), "policy {bytes:?}\npacket {packet:?}");
            assert!(at_once == alone, "not as one by one\npolicy {bytes:?}\npacket {packet:?}");
            assert!(
                answer.taken > 0 || at_once == before,
                "none taken and changed\npolicy {bytes:?}\npacket {packet:?}"
            );
            seen.packet(&packet, answer);
            seen.add("largest whole", usize::from(inputs::is_largest(&policy) && answer.refusal.is_none()));
        }
    });
    for what in ["packet whole", "packet refused 8", "packet refused 9", "packet took none", "packet took many"] {
        seen.at_least(500, what);
    }
    seen.at_least(100, "empty packet whole");
    seen.at_least(5, "largest whole");
}

/// Single takes until one is refused.
fn one_by_one(policy: &[u8], messages: &[Vec<u8>], buffers: &mut Buffers) -> PacketAnswer {
    let mut start = 0;
    for (taken, message) in messages.iter().enumerate() {
        if let Answer::Refused(Refusal { number, place }) = archive::receive(policy, message, buffers) {
            return PacketAnswer { taken, refusal: Some(Refusal { number, place: start + place }) };
        }
        start += message.len();
    }
    PacketAnswer { taken: messages.len(), refusal: None }
}
