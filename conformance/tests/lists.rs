//! Lists of takes from an opening: archive and oracle agree after every call.

use conformance::inputs::{self, Size};
use conformance::rounds::{self, Seen};
use conformance::{archive, lookup, open, receive};
use oracle::generate::{self, Random};
use oracle::policy::Policy;
use oracle::{Answer, Buffers};

/// What each job does: how many lists on policies of which size, and the most messages of a trace in one.
const KINDS: [(Size, usize, usize); 7] = [
    (Size::Tiny, 1000, 10),
    (Size::Small, 1000, 14),
    (Size::Small, 1000, 24),
    (Size::Medium, 150, 24),
    (Size::Wide, 10, 24),
    (Size::Long, 8, 16),
    (Size::Largest, 1, 10),
];

#[test]
fn archive_and_oracle_agree_after_every_take() {
    let jobs = 12 * KINDS.len();
    let seen = rounds::run(1_000_000, jobs, |number, random, seen| {
        let (size, lists, most) = KINDS[number % KINDS.len()];
        for _ in 0..lists {
            let policy = inputs::policy(random, size);
            let offers = inputs::offers(random, &policy, most);
            seen.one(&format!("{size:?} lists"));
            seen.kinds(&policy);
            list(random, &policy, &offers, seen);
        }
    });
    seen.at_least(20_000, "lists");
    seen.at_least(12, "largest lists");
    seen.at_least(500, "empty offers");
    seen.every_kind_at_least(5_000);
    for (what, times) in [("accepted", 50_000), ("refused 7", 5_000), ("refused 8", 5_000), ("refused 9", 5_000)] {
        seen.at_least(times, &format!("receive {what}"));
    }
    for what in ["kept", "broken", "lookup Satisfied", "lookup Violated", "lookup Unknown", "lookup refused 10"] {
        seen.at_least(1_000, what);
    }
}

/// All messages of a trace with few observations, so that every minute is known at the end.
#[test]
fn the_largest_policy_with_everything_known() {
    let seen = rounds::run(1_500_000, 4, |_, random, seen| {
        let policy = inputs::policy(random, Size::Largest);
        let trace = inputs::few_observations(random, &policy, 6);
        let offers = inputs::sent(random, &policy, &trace, 22);
        list(random, &policy, &offers, seen);
    });
    seen.at_least(4, "largest lists");
    seen.at_least(80, "receive accepted");
    seen.at_least(20, "kept");
    seen.at_least(20, "broken");
}

/// More messages than the oracle can read one by one: the archive takes them all, the oracle learns them, and both read
/// the last.
#[test]
fn the_largest_policy_with_many_observations() {
    let seen = rounds::run(1_700_000, 4, |_, random, seen| {
        let policy = inputs::policy(random, Size::Largest);
        let trace = generate::trace(random, &policy, 3);
        let mut messages = generate::every_message(&policy, &trace);
        random.shuffle(&mut messages);
        let last = generate::encode_message(&messages.pop().unwrap());
        let bytes = generate::encode_policy(&policy);
        let mut buffers = inputs::filled_buffers(random, &policy);
        assert_eq!(archive::open(&bytes, &mut buffers), Answer::Done);
        let mut learnt = buffers.clone();
        for message in &messages {
            let answer = archive::receive(&bytes, &generate::encode_message(message), &mut buffers);
            assert!(matches!(answer, Answer::Received(_)), "{answer:?} to {message:?} under {bytes:?}");
            learnt.learn(&policy, message);
        }
        assert!(buffers.numbers == learnt.numbers && buffers.facts == learnt.facts, "not learnt alike under {bytes:?}");
        assert!(buffers.origin == learnt.origin && buffers.extent == learnt.extent, "another policy than {bytes:?}");
        seen.answer("receive", receive(&bytes, &last, &mut buffers));
        seen.add("taken before", messages.len());
        seen.verdicts(&buffers.verdicts);
    });
    seen.at_least(4, "receive accepted");
    for what in ["taken before", "kept", "broken"] {
        seen.at_least(2_000, what);
    }
}

/// Opens, whatever the buffers hold, and offers the bytes one by one.
fn list(random: &mut Random, policy: &Policy, offers: &[Vec<u8>], seen: &mut Seen) {
    let bytes = generate::encode_policy(policy);
    let mut buffers = inputs::filled_buffers(random, policy);
    seen.answer("open", open(&bytes, &mut buffers));
    looks(random, policy, &bytes, &buffers, seen);
    for offer in offers {
        seen.answer("receive", receive(&bytes, offer, &mut buffers));
        seen.add("empty offers", usize::from(offer.is_empty()));
        if random.once_in(3) {
            looks(random, policy, &bytes, &buffers, seen);
        }
    }
    seen.verdicts(&buffers.verdicts);
    seen.one("lists");
    seen.add("largest lists", usize::from(inputs::is_largest(policy)));
}

/// Looks at a few cells, on and off the sheet.
fn looks(random: &mut Random, policy: &Policy, bytes: &[u8], buffers: &Buffers, seen: &mut Seen) {
    for _ in 0..4 {
        let (rule, minute) = inputs::cell(random, policy);
        seen.look(lookup(bytes, &buffers.verdicts, rule, minute));
    }
}
