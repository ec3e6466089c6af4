//! Damaged, stray and foreign policies, messages, records and sizes: every call is refused as the oracle says and changes
//! nothing, and what is still right is taken as the oracle takes it.

use conformance::inputs::{self, Size};
use conformance::rounds::{self, Seen};
use conformance::{lookup, open, receive, receive_packet};
use oracle::generate::{self, Random};
use oracle::policy::{self, Policy};
use oracle::refusal::{BUFFER_SIZE, OTHER_POLICY};
use oracle::trace::Trace;
use oracle::{knowledge, Answer, Buffers, Look, PacketAnswer, Refusal};
use zankezurt::State;

/// No policy is longer than 517 bytes; offered are these.
const LONGEST: usize = 600;

/// What each job does: how many cases on policies of which size.
const KINDS: [(Size, usize); 6] = [
    (Size::Tiny, 2_000),
    (Size::Small, 2_000),
    (Size::Medium, 200),
    (Size::Wide, 30),
    (Size::Long, 30),
    (Size::Largest, 3),
];

#[test]
fn anything_may_be_damaged() {
    let seen = rounds::run(3_000_000, 30 * KINDS.len(), |number, random, seen| {
        let (size, cases) = KINDS[number % KINDS.len()];
        for _ in 0..cases {
            let policy = inputs::policy(random, size);
            case(random, &policy, seen);
        }
    });
    for number in (1..=9).chain([12]) {
        seen.at_least(500, &format!("receive refused {number}"));
        seen.at_least(300, &format!("packet refused {number}"));
    }
    for number in (1..=6).chain([12]) {
        seen.at_least(100, &format!("empty packet refused {number}"));
    }
    for what in ["empty packet whole", "packet whole", "packet took none", "packet took one", "packet took many"] {
        seen.at_least(500, what);
    }
    for number in 1..=5 {
        seen.at_least(500, &format!("open refused {number}"));
        seen.at_least(500, &format!("lookup refused {number}"));
    }
    seen.at_least(500, "lookup refused 10");
    for what in
        ["open done", "receive accepted", "damaged and sound", "damaged and accepted", "other origin and unsound"]
    {
        seen.at_least(300, what);
    }
    seen.at_least(100, "other policy accepted");
    seen.at_least(50, "largest");
    seen.at_least(5, "largest accepted");
}

/// One state, one message and one packet, each part of them damaged or not, offered to all four calls.
fn case(random: &mut Random, original: &Policy, seen: &mut Seen) {
    let bytes = damaged_policy(random, original);
    let read = policy::read(&bytes);
    let policy = if random.once_in(2) { read.as_ref().unwrap_or(original) } else { original };
    let trace = inputs::trace(random, policy, 8);
    let mut buffers = Buffers::sized(policy);
    generate::sound_knowledge(random, policy, &trace, &mut buffers);
    inputs::fill_sheets(random, &mut buffers);
    let damaged = random.once_in(2);
    if damaged {
        damage_record(random, policy, &mut buffers);
    }
    let sound = knowledge::sound(policy, &buffers);
    if random.once_in(8) {
        generate::resize_buffers(random, &mut buffers);
    }
    let message = generate::message(random, policy, &trace);
    let message = damaged_message(random, policy, &generate::encode_message(&message));
    let (rule, minute) = inputs::cell(random, policy);
    seen.answer("open", open(&bytes, &mut buffers.clone()));
    seen.look(lookup(&bytes, &buffers.verdicts, rule, minute));
    let packet = damaged_packet(random, policy, &trace);
    seen.packet(&packet, receive_packet(&bytes, &packet, &mut buffers.clone()));
    let answer = receive(&bytes, &message, &mut buffers);
    seen.answer("receive", answer);
    let accepted = matches!(answer, Answer::Received(_));
    let other_origin = matches!(answer, Answer::Refused(refusal) if refusal.number == OTHER_POLICY);
    seen.add("damaged and sound", usize::from(damaged && sound));
    seen.add("other origin and unsound", usize::from(other_origin && !sound));
    seen.add("damaged and accepted", usize::from(damaged && accepted));
    seen.add("other policy accepted", usize::from(accepted && read.as_ref() != Ok(original)));
    let largest = inputs::is_largest(policy);
    seen.add("largest", usize::from(largest));
    seen.add("largest accepted", usize::from(largest && accepted));
}

/// The policy's bytes, mostly as they are.
fn damaged_policy(random: &mut Random, policy: &Policy) -> Vec<u8> {
    let mut bytes = generate::encode_policy(policy);
    match random.below(16) {
        0 => bytes = generate::damaged(random, &bytes),
        1 => bytes = generate::stray_policy(random, policy),
        2 => bytes.extend(inputs::noise(random, LONGEST)),
        3 => {
            bytes.truncate(5);
            bytes.extend(inputs::noise(random, LONGEST - 5));
        }
        4 => bytes = inputs::noise(random, LONGEST),
        _ => (),
    }
    bytes
}

/// The message's bytes, often as they are.
fn damaged_message(random: &mut Random, policy: &Policy, bytes: &[u8]) -> Vec<u8> {
    match random.below(10) {
        0 | 1 => generate::damaged(random, bytes),
        2 | 3 => generate::stray_message(random, policy),
        4 => inputs::noise(random, LONGEST),
        5 => [bytes, &inputs::noise(random, LONGEST)].concat(),
        _ => bytes.to_vec(),
    }
}

/// Up to three messages end to end, each often as it is.
fn damaged_packet(random: &mut Random, policy: &Policy, trace: &Trace) -> Vec<u8> {
    let messages: Vec<_> = (0..random.below(4)).map(|_| generate::message(random, policy, trace)).collect();
    messages.iter().flat_map(|message| damaged_message(random, policy, &generate::encode_message(message))).collect()
}

/// A few cells with values near the right ones, or anything in some cells, or anything everywhere, but for the policy
/// that the record was opened under, or with it.
fn damage_record(random: &mut Random, policy: &Policy, buffers: &mut Buffers) {
    match random.below(10) {
        0 => {
            let Buffers { origin, extent, .. } = buffers.clone();
            *buffers = Buffers { origin, extent, ..inputs::filled_buffers(random, policy) };
        }
        1 => *buffers = inputs::filled_buffers(random, policy),
        2 => generate::damage_origin(random, policy, buffers),
        3 => {
            let cell = random.below(buffers.numbers.len());
            buffers.numbers[cell] = random.word() as u16;
        }
        4 => {
            let cell = random.below(buffers.facts.len());
            buffers.facts[cell] = random.word() as u32;
        }
        _ => generate::damage_buffers(random, policy, buffers),
    }
}

/// A buffer's length, and the buffer made another length.
type Resizing = (fn(&Buffers) -> usize, fn(&mut Buffers, usize));

const RESIZINGS: [Resizing; 5] = [
    (|buffers| buffers.numbers.len(), |buffers, length| buffers.numbers.resize(length, 0)),
    (|buffers| buffers.facts.len(), |buffers, length| buffers.facts.resize(length, 0)),
    (|buffers| buffers.valuation.len(), |buffers, length| buffers.valuation.resize(length, 0)),
    (|buffers| buffers.verdicts.len(), |buffers, length| buffers.verdicts.resize(length, 0)),
    (|buffers| buffers.origin.len(), |buffers, length| buffers.origin.resize(length, 0)),
];

/// Each buffer empty, of one cell, short or long by one, of twice its size, and huge.
#[test]
fn buffers_of_every_wrong_size() {
    let seen = rounds::run(3_500_000, 10 * Size::ALL.len(), |number, random, seen| {
        let policy = inputs::policy(random, Size::ALL[number % Size::ALL.len()]);
        let bytes = generate::encode_policy(&policy);
        let exact = inputs::filled_buffers(random, &policy);
        for (length, resize) in RESIZINGS {
            for wrong in lengths(length(&exact)) {
                let mut buffers = exact.clone();
                resize(&mut buffers, wrong);
                refused_for_size(&bytes, &buffers, seen);
                seen.look(lookup(&bytes, &buffers.verdicts, 0, 0));
            }
        }
    });
    for call in ["open", "receive", "packet", "empty packet", "lookup"] {
        seen.at_least(200, &format!("{call} refused 5"));
    }
}

fn lengths(exact: usize) -> impl Iterator<Item = usize> {
    [0, 1, exact - 1, exact + 1, 2 * exact, 300_000].into_iter().filter(move |length| *length != exact)
}

fn refused_for_size(policy: &[u8], buffers: &Buffers, seen: &mut Seen) {
    let refusal = Refusal { number: BUFFER_SIZE, place: 0 };
    let opened = open(policy, &mut buffers.clone());
    let received = receive(policy, &[0x10], &mut buffers.clone());
    for (call, answer) in [("open", opened), ("receive", received)] {
        assert_eq!(answer, Answer::Refused(refusal));
        seen.answer(call, answer);
    }
    for packet in [&[][..], &[0x10, 0x10]] {
        let answer = receive_packet(policy, packet, &mut buffers.clone());
        assert_eq!(answer, PacketAnswer { taken: 0, refusal: Some(refusal) });
        seen.packet(packet, answer);
    }
}

/// A policy of the largest sizes cut at every length, and with every byte changed in several ways.
#[test]
fn every_byte_of_the_largest_policies() {
    let seen = rounds::run(3_800_000, 8, |_, random, seen| {
        let policy = inputs::policy(random, Size::Largest);
        let bytes = generate::encode_policy(&policy);
        let buffers = inputs::filled_buffers(random, &policy);
        for place in 0..bytes.len() {
            refused_policy(random, &bytes[..place], &buffers, seen);
            for _ in 0..4 {
                let mut other = bytes.clone();
                let flipped = other[place] ^ (1 << random.below(8));
                let any = random.word() as u8;
                other[place] = random.pick(&[0, flipped, any]);
                refused_policy(random, &other, &buffers, seen);
            }
        }
        for more in 1..LONGEST - bytes.len() {
            refused_policy(random, &[&bytes[..], &vec![0; more]].concat(), &buffers, seen);
        }
    });
    for call in ["open", "receive", "packet", "empty packet", "lookup"] {
        for number in 1..=3 {
            seen.at_least(10, &format!("{call} refused {number}"));
        }
    }
    seen.at_least(10, "still a policy");
}

/// Two propositions, one component, five minutes and lines of all twelve kinds, most of them with all of their fields.
const EVERY_KIND: &[&[u8]] = &[
    &[2, 1, 5, 0, 13],
    &[0x01, 1],                   // 0: proposition 0
    &[0x03, 1, 1],                // 1: proposition 1
    &[0x20],                      // 2: true, a rule
    &[0x03, 2, 1],                // 3: not 1
    &[0x27, 3, 3, 1],             // 4: 3 or 1, a rule
    &[0x1F, 4, 2, 3, 1, 0, 2, 0], // 5: 2 since 3
    &[0x1F, 5, 4, 1, 1, 0, 3, 0], // 6: 4 until 1
    &[0x27, 6, 5, 3],             // 7: 5 and 3, a rule
    &[0x27, 7, 5, 6],             // 8: 5 implies 6, a rule
    &[0x3B, 8, 3, 1, 0, 2, 0],    // 9: once 3, a rule
    &[0x3B, 9, 1, 1, 0, 3, 0],    // 10: historically 1, a rule
    &[0x3B, 10, 9, 1, 0, 1, 0],   // 11: eventually 9, a rule
    &[0x33, 11, 4, 2, 0],         // 12: always 4, a rule
];

/// Every byte of a policy with every kind replaced by every other one. Where it is still a policy, what is opened and
/// what is read after a message is compared too.
#[test]
fn every_other_byte_of_a_policy_with_every_kind() {
    let bytes = EVERY_KIND.concat();
    let sizes = Buffers::sized(&policy::read(&bytes).unwrap());
    // At minute 1, the second observation, with both propositions.
    let message = [0x0E, 1, 0, 2, 0, 3, 0, 0, 0, 1];
    let seen = rounds::run(3_850_000, bytes.len(), |place, random, seen| {
        let place = place % bytes.len();
        for byte in 0..=255 {
            let mut other = bytes.clone();
            other[place] = byte;
            let mut buffers = sizes.clone();
            inputs::fill_sheets(random, &mut buffers);
            let answer = open(&other, &mut buffers);
            seen.answer("open", answer);
            seen.look(lookup(&other, &buffers.verdicts, 6, 4));
            seen.answer("receive", receive(&other, &message, &mut buffers));
            if answer == Answer::Done {
                seen.kinds(&policy::read(&other).unwrap());
            }
        }
    });
    for number in 1..=5 {
        seen.at_least(1, &format!("open refused {number}"));
    }
    seen.at_least(500, "open done");
    seen.at_least(500, "receive accepted");
    seen.every_kind_at_least(500);
}

/// Offers the bytes to all four calls; only to lookup where they are still a policy, which takes the oracle long to read.
fn refused_policy(random: &mut Random, bytes: &[u8], buffers: &Buffers, seen: &mut Seen) {
    let look = lookup(bytes, &buffers.verdicts, random.below(8), random.below(1024));
    seen.look(look);
    match policy::read(bytes) {
        Ok(_) => seen.one("still a policy"),
        Err(refusal) => {
            assert_eq!(look, Look::Refused(refusal));
            seen.answer("open", open(bytes, &mut buffers.clone()));
            seen.answer("receive", receive(bytes, &[0x10], &mut buffers.clone()));
            for packet in [&[][..], &[0x10, 0x10]] {
                seen.packet(packet, receive_packet(bytes, packet, &mut buffers.clone()));
            }
        }
    }
}

/// How many cells stand on each side of the lent ones.
const MARGIN: usize = 64;

/// Cells that are lent, between cells that are not.
struct Lent<T> {
    cells: Vec<T>,
    mark: T,
}

impl<T: Copy + PartialEq> Lent<T> {
    fn new(part: &[T], mark: T) -> Lent<T> {
        let margin = [mark; MARGIN];
        Lent { cells: [&margin[..], part, &margin[..]].concat(), mark }
    }

    fn part(&mut self) -> &mut [T] {
        let end = self.cells.len() - MARGIN;
        &mut self.cells[MARGIN..end]
    }

    fn kept_beside(&self) -> bool {
        let (before, after) = (&self.cells[..MARGIN], &self.cells[self.cells.len() - MARGIN..]);
        before.iter().chain(after).all(|cell| *cell == self.mark)
    }
}

/// The cells of a state, each buffer's and the extent between others.
struct LentState {
    numbers: Lent<u16>,
    facts: Lent<u32>,
    valuation: Lent<u8>,
    verdicts: Lent<u8>,
    origin: Lent<u8>,
    extent: Lent<u16>,
}

impl LentState {
    fn new(buffers: Buffers) -> LentState {
        LentState {
            numbers: Lent::new(&buffers.numbers, 0x5A5A),
            facts: Lent::new(&buffers.facts, 0x5A5A_5A5A),
            valuation: Lent::new(&buffers.valuation, 0x5A),
            verdicts: Lent::new(&buffers.verdicts, 0x5A),
            origin: Lent::new(&buffers.origin, 0x5A),
            extent: Lent::new(&[buffers.extent], 0x5A5A),
        }
    }

    fn state(&mut self) -> State<'_> {
        State {
            numbers: self.numbers.part(),
            facts: self.facts.part(),
            valuation: self.valuation.part(),
            verdicts: self.verdicts.part(),
            origin: self.origin.part(),
            extent: &mut self.extent.part()[0],
        }
    }

    fn kept_beside(&self) -> bool {
        let knowledge = self.numbers.kept_beside() && self.facts.kept_beside();
        let sheets = self.valuation.kept_beside() && self.verdicts.kept_beside();
        knowledge && sheets && self.origin.kept_beside() && self.extent.kept_beside()
    }
}

/// The buffers are parts of longer ones, as C lends them.
#[test]
fn nothing_beside_the_lent_cells_is_written() {
    let seen = rounds::run(3_900_000, 20 * Size::ALL.len(), |number, random, seen| {
        let policy = inputs::policy(random, Size::ALL[number % Size::ALL.len()]);
        let bytes = generate::encode_policy(&policy);
        let trace = inputs::trace(random, &policy, 8);
        let mut lent = LentState::new(inputs::filled_buffers(random, &policy));
        assert_eq!(zankezurt::open(&bytes, &mut lent.state()), Ok(()));
        for offers in generate::offers(random, &policy, &trace, 60).chunks(3) {
            let taken = zankezurt::receive(&bytes, &offers[0], &mut lent.state());
            seen.one(if taken.is_ok() { "accepted" } else { "refused" });
            let packet = zankezurt::receive_packet(&bytes, &offers.concat(), &mut lent.state());
            seen.add("taken in packets", packet.taken);
            seen.add("packets refused", usize::from(packet.refusal.is_some()));
            assert!(lent.kept_beside(), "policy {bytes:?}\nmessages {offers:?}");
        }
    });
    seen.at_least(1_000, "accepted");
    seen.at_least(1_000, "taken in packets");
    seen.at_least(100, "refused");
    seen.at_least(100, "packets refused");
}
