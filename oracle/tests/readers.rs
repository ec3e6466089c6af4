//! The two readers at the edges, each row of the table of refusals, and the order of the checks.

use oracle::knowledge::known_busy;
use oracle::message::{self, Event, Message};
use oracle::policy::{self, Formula, Policy, Span, Subformula, Temporal};
use oracle::reading::Verdict;
use oracle::refusal::*;
use oracle::{lookup, open, receive, receive_packet, Answer, Buffers, Look, PacketAnswer, Refusal};

/// A refusal of the policy reader.
fn policy_refusal(bytes: &[u8]) -> (u8, usize) {
    let Refusal { number, place } = policy::read(bytes).unwrap_err();
    (number, place)
}

/// A policy with two propositions, two components, three minutes and these lines.
fn with_lines(lines: &[&[u8]]) -> Vec<u8> {
    [&[2, 2, 3, 0, lines.len() as u8], lines.concat().as_slice()].concat()
}

const TRUE: &[u8] = &[0x00];
const RULE: &[u8] = &[0x20];

#[test]
fn a_policy_read() {
    let since = Temporal { first: 1, second: 2, lower: 258, upper: 1023 };
    let until = Temporal { first: 0, second: 0, lower: 0, upper: 0 };
    let formulas = [
        (Formula::True, false),
        (Formula::Proposition(1), true),
        (Formula::Not(0), false),
        (Formula::Or(1, 0), true),
        (Formula::Since(since), true),
        (Formula::Until(until), false),
        (Formula::Proposition(0), false),
        (Formula::And(1, 6), true),
        (Formula::Implies(0, 7), false),
        (Formula::Once(Span { first: 8, lower: 258, upper: 1023 }), true),
        (Formula::Historically(Span { first: 0, lower: 0, upper: 0 }), false),
        (Formula::Eventually(Span { first: 10, lower: 1, upper: 1 }), false),
        (Formula::Always(Span { first: 2, lower: 0, upper: 770 }), true),
    ];
    let subformulas = formulas.map(|(formula, rule)| Subformula { formula, rule }).to_vec();
    let expected = Policy { propositions: 2, components: 2, minutes: 3, subformulas };
    let bytes = with_lines(&[
        &[0x00],
        &[0x23, 1, 1],
        &[0x01, 2],
        &[0x23, 3, 1],
        &[0x3F, 4, 1, 2, 0x02, 0x01, 0xFF, 0x03],
        &[0x01, 5],
        &[0x01, 1],
        &[0x27, 6, 1, 6],
        &[0x05, 7, 7],
        &[0x3B, 8, 8, 0x02, 0x01, 0xFF, 0x03],
        &[0x01, 9],
        &[0x1B, 10, 10, 1, 0, 1, 0],
        &[0x33, 11, 2, 0x02, 0x03],
    ]);
    assert_eq!(policy::read(&bytes), Ok(expected));
    assert_eq!(policy::read(&bytes).unwrap().rules(), [1, 3, 4, 7, 9, 12]);
}

#[test]
fn a_policy_cut_or_followed_by_bytes_is_1() {
    assert_eq!(policy_refusal(&[]), (1, 0));
    assert_eq!(policy_refusal(&[0, 0, 0, 0]), (1, 4));
    let bytes = with_lines(&[TRUE, &[0x3F, 4, 0, 0, 1, 1, 1, 1], RULE]);
    // Every cut inside the lines is 1 at the length, unless an earlier line is bad: line 1 writes zeros.
    assert_eq!(policy_refusal(&bytes[..5]), (1, 5));
    assert_eq!(policy_refusal(&bytes[..6]), (1, 6));
    for length in 7..14 {
        assert_eq!(policy_refusal(&bytes[..length]), (1, length));
    }
    assert_eq!(policy_refusal(&bytes[..14]), (3, 6));
    let good = with_lines(&[TRUE, RULE]);
    assert!(policy::read(&good).is_ok());
    assert_eq!(policy_refusal(&[&good[..], &[0]].concat()), (1, 7));
    assert_eq!(policy_refusal(&[&good[..], &[0, 0, 0]].concat()), (1, 7));
}

#[test]
fn a_heading_number_out_of_range_is_2_at_its_field() {
    let good = with_lines(&[RULE]);
    let with = |place: usize, byte: u8| {
        let mut bytes = good.clone();
        bytes[place] = byte;
        bytes
    };
    assert_eq!(policy_refusal(&with(0, 0)), (2, 0));
    assert_eq!(policy_refusal(&with(0, 33)), (2, 0));
    assert!(policy::read(&with(0, 32)).is_ok());
    assert_eq!(policy_refusal(&with(1, 0)), (2, 1));
    assert_eq!(policy_refusal(&with(1, 17)), (2, 1));
    assert!(policy::read(&with(1, 16)).is_ok());
    assert_eq!(policy_refusal(&with(2, 0)), (2, 2));
    assert_eq!(policy_refusal(&[2, 2, 0x01, 0x04, 1, 0x20]), (2, 2));
    assert!(policy::read(&[2, 2, 0x00, 0x04, 1, 0x20]).is_ok());
    assert_eq!(policy_refusal(&with(4, 0)), (2, 4));
    assert_eq!(policy_refusal(&with(4, 65)), (2, 4));
    // The first such field, and before anything of the lines.
    assert_eq!(policy_refusal(&[1, 17, 0, 0, 0]), (2, 1));
    assert_eq!(policy_refusal(&[33, 17, 0, 0, 0]), (2, 0));
    assert_eq!(policy_refusal(&[1, 1, 1, 0, 0, 0xFF]), (2, 4));
    assert_eq!(policy_refusal(&[1, 1, 1, 0, 64]), (1, 5));
}

#[test]
fn a_bad_line_is_3_at_its_map() {
    let bad: &[&[u8]] = &[
        &[0x40],                      // bit 6
        &[0x80],                      // bit 7
        &[0x01, 0],                   // kind written, and 0
        &[0x01, 12],                  // no such kind
        &[0x01, 13],                  // no such kind
        &[0x01, 255],                 // no such kind
        &[0x02, 1],                   // true allows no field
        &[0x04, 1],                   // true allows no field
        &[0x08, 1, 0],                // true allows no field
        &[0x10, 1, 0],                // true allows no field
        &[0x03, 1, 0],                // first written, and 0
        &[0x03, 1, 2],                // no such proposition
        &[0x05, 1, 1],                // a proposition allows no second
        &[0x11, 1, 1, 0],             // a proposition allows no upper
        &[0x03, 2, 2],                // not: the line itself
        &[0x03, 2, 3],                // not: a later line
        &[0x05, 2, 1],                // not allows no second
        &[0x09, 2, 1, 0],             // not allows no lower
        &[0x03, 3, 2],                // or: the line itself first
        &[0x05, 3, 2],                // or: the line itself second
        &[0x11, 3, 1, 0],             // or allows no upper
        &[0x13, 4, 2, 1, 0],          // since: the line itself first
        &[0x15, 4, 2, 1, 0],          // since: the line itself second
        &[0x09, 4, 1, 0],             // lower above upper
        &[0x19, 5, 2, 0, 1, 0],       // lower above upper
        &[0x11, 5, 0x00, 0x04],       // upper 1,024
        &[0x19, 5, 0, 4, 0, 4],       // both 1,024
        &[0x11, 4, 0, 0],             // upper written, and 0
        &[0x19, 4, 0, 0, 1, 0],       // lower written, and 0
        &[0x1F, 4, 1, 0, 1, 0, 1, 0], // second written, and 0
        &[0xDF, 4, 1, 1, 1, 0, 1, 0], // all as should be, but bits 6 and 7
        &[0x03, 6, 2],                // and: the line itself first
        &[0x05, 6, 2],                // and: the line itself second
        &[0x07, 6, 1, 3],             // and: a later line
        &[0x07, 6, 0, 1],             // first written, and 0
        &[0x07, 6, 1, 0],             // second written, and 0
        &[0x11, 6, 1, 0],             // and allows no upper
        &[0x03, 7, 2],                // implies: the line itself first
        &[0x05, 7, 2],                // implies: the line itself second
        &[0x07, 7, 3, 1],             // implies: a later line
        &[0x19, 7, 1, 0, 1, 0],       // implies allows no lower and no upper
        &[0x05, 8, 1],                // once allows no second
        &[0x05, 8, 0],                // nor a written 0 there
        &[0x13, 8, 2, 1, 0],          // once: the line itself
        &[0x13, 8, 0, 1, 0],          // first written, and 0
        &[0x19, 8, 2, 0, 1, 0],       // lower above upper
        &[0x1F, 9, 1, 1, 1, 0, 1, 0], // historically allows no second
        &[0x13, 9, 3, 1, 0],          // historically: a later line
        &[0x09, 9, 1, 0],             // lower above upper
        &[0x11, 9, 0x00, 0x04],       // upper 1,024
        &[0x17, 10, 1, 1, 1, 0],      // eventually allows no second
        &[0x03, 10, 2],               // eventually: the line itself
        &[0x19, 10, 0, 4, 0, 4],      // both 1,024
        &[0x11, 10, 0, 0],            // upper written, and 0
        &[0x15, 11, 1, 1, 0],         // always allows no second
        &[0x03, 11, 2],               // always: the line itself
        &[0x19, 11, 2, 0, 1, 0],      // lower above upper
        &[0x11, 11, 0xFF, 0xFF],      // upper far too high
        &[0x19, 11, 0, 0, 1, 0],      // lower written, and 0
        &[0x5B, 11, 1, 1, 0, 1, 0],   // all as should be, but bit 6
    ];
    for line in bad {
        assert_eq!(policy_refusal(&with_lines(&[TRUE, RULE, line])), (3, 7), "{line:02X?}");
        // Cut by one byte it is cut, if that leaves too few: 1 before 3.
        let bytes = with_lines(&[TRUE, RULE, line]);
        let cut = &bytes[..bytes.len() - 1];
        assert_eq!(policy_refusal(cut), (1, cut.len()), "{line:02X?}");
    }
    let good: &[&[u8]] = &[
        &[0x01, 1],
        &[0x03, 1, 1],
        &[0x03, 2, 1],
        &[0x01, 2],
        &[0x07, 3, 1, 1],
        &[0x01, 3],
        &[0x01, 4],
        &[0x19, 4, 1, 0, 1, 0],
        &[0x1F, 5, 1, 1, 0xFF, 0x03, 0xFF, 0x03],
        &[0x07, 6, 1, 1],
        &[0x01, 6],
        &[0x07, 7, 1, 1],
        &[0x01, 7],
        &[0x1B, 8, 1, 0xFF, 0x03, 0xFF, 0x03],
        &[0x01, 8],
        &[0x11, 9, 0xFF, 0x03],
        &[0x19, 10, 1, 0, 1, 0],
        &[0x13, 11, 1, 1, 0],
    ];
    for line in good {
        assert!(policy::read(&with_lines(&[TRUE, RULE, line])).is_ok(), "{line:02X?}");
    }
}

/// The bits of the fields that each kind allows, its own among them: 1 first, 2 second, 3 lower, 4 upper.
const ALLOWED: [u8; 12] = [0x01, 0x03, 0x03, 0x07, 0x1F, 0x1F, 0x07, 0x07, 0x1B, 0x1B, 0x1B, 0x1B];

/// Each kind with every choice of fields, all of them 1, after two lines.
#[test]
fn each_kind_with_every_choice_of_fields() {
    let sizes = [1, 1, 1, 2, 2];
    let mut good = [0; 12];
    for kind in 1..=255 {
        for map in (0x01..0x20).step_by(2) {
            let written = (1..5).filter(|bit| map >> bit & 1 == 1).flat_map(|bit| &[1, 0][..sizes[bit]]);
            let line: Vec<u8> = [map, kind].iter().chain(written).copied().collect();
            let allowed = ALLOWED.get(usize::from(kind)).is_some_and(|allowed| map & !allowed == 0);
            // A lower of 1 is above an upper that is not written.
            let right = allowed && map & 0x18 != 0x08;
            let read = policy::read(&with_lines(&[TRUE, RULE, &line]));
            if right {
                good[usize::from(kind)] += 1;
                assert_eq!(read.map(|policy| policy.subformulas.len()), Ok(3), "{line:02X?}");
            } else {
                assert_eq!(read, Err(Refusal { number: BAD_SUBFORMULA, place: 7 }), "{line:02X?}");
            }
        }
    }
    assert_eq!(good, [0, 2, 2, 4, 12, 12, 4, 4, 6, 6, 6, 6]);
}

#[test]
fn the_first_line_has_no_earlier_ones() {
    for kind in 2..=11 {
        assert_eq!(policy_refusal(&with_lines(&[&[0x21, kind]])), (3, 5));
    }
    // The first bad line is told, and before what follows it.
    assert_eq!(policy_refusal(&with_lines(&[RULE, &[0x40], &[0x40]])), (3, 6));
    assert_eq!(policy_refusal(&[2, 2, 3, 0, 3, 0x40]), (3, 5));
    assert_eq!(policy_refusal(&[2, 2, 3, 0, 1, 0x40, 0]), (3, 5));
}

#[test]
fn no_rule_or_nine_is_4() {
    assert_eq!(policy_refusal(&with_lines(&[TRUE])), (4, 0));
    assert_eq!(policy_refusal(&with_lines(&[RULE; 9])), (4, 0));
    assert!(policy::read(&with_lines(&[RULE; 8])).is_ok());
    // Trailing bytes first.
    assert_eq!(policy_refusal(&[&with_lines(&[TRUE])[..], &[0]].concat()), (1, 6));
}

/// Operands are not written where they are 0, so that the first two lines can't have all fields.
#[test]
fn the_longest_policy() {
    let mut bytes = vec![32, 16, 0x00, 0x04, 64, 0x23, 1, 31, 0x19, 4, 1, 0, 0xFF, 0x03];
    for _ in 2..64 {
        bytes.extend([0x1F, 5, 1, 1, 0xFF, 0x03, 0xFF, 0x03]);
    }
    assert_eq!(bytes.len(), policy::MOST_BYTES - 7);
    assert_eq!(policy::read(&bytes).unwrap().subformulas.len(), 64);
}

/// Two propositions, two components, three minutes.
fn sizes() -> Policy {
    policy::read(&with_lines(&[RULE])).unwrap()
}

fn message_refusal(bytes: &[u8]) -> (u8, usize) {
    let Refusal { number, place } = message::read(&sizes(), bytes).unwrap_err();
    (number, place)
}

#[test]
fn messages_read() {
    let read = |bytes: &[u8]| message::read(&sizes(), bytes).unwrap();
    let observation = |component, minute, number, named, values| Message {
        component,
        event: Event::Observation { minute, number, named, values },
    };
    let alive = |component, minute, number| Message { component, event: Event::Alive { minute, number } };
    assert_eq!(read(&[0x04, 1, 0]), observation(0, 0, 1, 0, 0));
    assert_eq!(read(&[0x07, 1, 2, 0, 0xFE, 0xFF]), observation(1, 2, 65534, 0, 0));
    assert_eq!(read(&[0x0C, 1, 0, 3, 0, 0, 0, 2]), observation(0, 0, 1, 3, 2));
    assert_eq!(read(&[0x0C, 1, 0, 2, 0, 0, 0, 1]), observation(0, 0, 1, 2, 2));
    assert_eq!(read(&[0x0C, 1, 0, 2, 0, 0, 0, 0]), observation(0, 0, 1, 2, 0));
    assert_eq!(read(&[0x10]), alive(0, 0, 0));
    assert_eq!(read(&[0x17, 1, 3, 0, 3, 0]), alive(1, 3, 3));
}

#[test]
fn values_of_nine_and_of_all_propositions() {
    let policy = policy::read(&[32, 1, 1, 0, 1, 0x20]).unwrap();
    let event = |bytes: &[u8]| message::read(&policy, bytes).map(|message| message.event);
    let of = |named, values| Ok(Event::Observation { minute: 0, number: 1, named, values });
    let bad = Err(Refusal { number: BAD_MESSAGE, place: 0 });
    // Nine named: bits 4 to 12; the ninth value is the second byte's lowest bit.
    assert_eq!(event(&[0x0C, 1, 0, 0xF0, 0x1F, 0, 0, 0x81, 1]), of(0x1FF0, 0x1810));
    assert_eq!(event(&[0x0C, 1, 0, 0xF0, 0x1F, 0, 0, 0x81, 2]), bad);
    assert_eq!(event(&[0x0C, 1, 0, 0xFF, 0xFF, 0xFF, 0xFF, 1, 2, 4, 0x80]), of(u32::MAX, 0x8004_0201));
    assert_eq!(event(&[0x0C, 1, 0, 0, 0, 0, 0x80, 1]), of(1 << 31, 1 << 31));
    assert_eq!(event(&[0x0C, 1, 0, 0, 0, 0, 0x80, 3]), bad);
}

#[test]
fn a_message_cut_or_followed_by_bytes_is_7() {
    let whole = [0x0F, 1, 1, 0, 1, 0, 3, 0, 0, 0, 0];
    assert!(message::read(&sizes(), &whole).is_ok());
    for length in 0..whole.len() {
        assert_eq!(message_refusal(&whole[..length]), (7, length));
    }
    assert_eq!(message_refusal(&[&whole[..], &[0]].concat()), (7, 11));
    assert_eq!(message_refusal(&[&whole[..], &[0, 0]].concat()), (7, 11));
    // Bits 5 to 7 never change the length, and 7 comes before 8.
    assert_eq!(message_refusal(&[0xE0, 0]), (7, 1));
    assert_eq!(message_refusal(&[0xE4, 1]), (7, 2));
    // Propositions beyond the policy's still have value bytes: 32 named, four bytes.
    assert_eq!(message_refusal(&[0x0C, 1, 0, 0xFF, 0xFF, 0xFF, 0xFF, 0, 0, 0]), (7, 10));
    assert_eq!(message_refusal(&[0x0C, 1, 0, 0xFF, 0xFF, 0xFF, 0xFF, 0, 0, 0, 0]), (8, 0));
    // An empty proposition map has none.
    assert_eq!(message_refusal(&[0x0C, 1, 0, 0, 0, 0, 0, 0]), (7, 7));
}

#[test]
fn a_bad_message_is_8() {
    let bad: &[&[u8]] = &[
        &[0x00],                         // count 0
        &[0x02, 1, 0],                   // count 0
        &[0x24, 1, 0],                   // bit 5
        &[0x44, 1, 0],                   // bit 6
        &[0x84, 1, 0],                   // bit 7
        &[0x30],                         // bit 5, alive
        &[0x05, 0, 1, 0],                // component written, and 0
        &[0x05, 2, 1, 0],                // no such component
        &[0x15, 2, 1, 0],                // no such component
        &[0x06, 0, 0, 1, 0],             // minute written, and 0
        &[0x06, 3, 0, 1, 0],             // observation at minute M
        &[0x16, 4, 0, 1, 0],             // alive past minute M
        &[0x04, 0, 0],                   // count written, and 0
        &[0x14, 0, 0],                   // count written, and 0
        &[0x0C, 1, 0, 0, 0, 0, 0],       // proposition map written, and 0
        &[0x0C, 1, 0, 4, 0, 0, 0, 0],    // no such proposition
        &[0x0C, 1, 0, 0, 0, 0, 0x80, 0], // no such proposition
        &[0x0C, 1, 0, 1, 0, 0, 0, 2],    // spare bit
        &[0x0C, 1, 0, 3, 0, 0, 0, 0x80], // spare bit
        &[0x18, 1, 0, 0, 0, 0],          // an alive names no propositions
        &[0x18, 0, 0, 0, 0],             // nor writes an empty map
    ];
    for bytes in bad {
        assert_eq!(message_refusal(bytes), (8, 0), "{bytes:02X?}");
    }
}

/// The first message's refusal, if it has one, and what follows the message.
fn first(bytes: &[u8]) -> (Option<(u8, usize)>, &[u8]) {
    let (message, rest) = message::read_first(&sizes(), bytes);
    (message.err().map(|Refusal { number, place }| (number, place)), rest)
}

#[test]
fn the_first_message_and_the_rest() {
    let whole = [0x0F, 1, 1, 0, 1, 0, 3, 0, 0, 0, 0, 0x10, 0xFF];
    assert_eq!(first(&whole), (None, &[0x10, 0xFF][..]));
    assert_eq!(first(&whole[..11]), (None, &[][..]));
    assert_eq!(first(&[0x10, 0x10]), (None, &[0x10][..]));
    // On 7 nothing is handed back.
    for length in 0..11 {
        assert_eq!(first(&whole[..length]), (Some((7, length)), &[][..]));
    }
    // On 8 it is what follows the message.
    assert_eq!(first(&[0x00]), (Some((8, 0)), &[][..]));
    assert_eq!(first(&[0x00, 0x10, 0xFF]), (Some((8, 0)), &[0x10, 0xFF][..]));
    assert_eq!(first(&[0xE0, 0]), (Some((8, 0)), &[0][..]));
    assert_eq!(first(&[0x0C, 1, 0, 4, 0, 0, 0, 0, 7]), (Some((8, 0)), &[7][..]));
    assert_eq!(first(&[0x0C, 1, 0, 0xFF, 0xFF, 0xFF, 0xFF, 0, 0, 0, 0, 7]), (Some((8, 0)), &[7][..]));
}

/// The policy of `sizes` with its buffers after opening.
fn fresh() -> (Vec<u8>, Buffers) {
    let bytes = with_lines(&[RULE]);
    let mut buffers = Buffers::sized(&sizes());
    assert_eq!(open(&bytes, &mut buffers), Answer::Done);
    (bytes, buffers)
}

fn refused(number: u8) -> Answer {
    Answer::Refused(Refusal { number, place: 0 })
}

/// Receives and, if the call is refused, sees that nothing changed.
fn offered(policy: &[u8], message: &[u8], buffers: &Buffers) -> Answer {
    let mut after = buffers.clone();
    let answer = receive(policy, message, &mut after);
    if let Answer::Refused(_) = answer {
        assert_eq!(after, *buffers);
    }
    answer
}

#[test]
fn a_buffer_of_another_size_is_5() {
    let (policy, buffers) = fresh();
    let changes: [fn(&mut Buffers); 11] = [
        |buffers| buffers.numbers.push(0),
        |buffers| buffers.numbers.truncate(2),
        |buffers| buffers.facts.push(0),
        |buffers| buffers.facts.truncate(2),
        |buffers| buffers.valuation.push(0),
        |buffers| buffers.valuation.truncate(2),
        |buffers| buffers.verdicts.push(0),
        |buffers| buffers.verdicts.truncate(2),
        |buffers| buffers.origin.push(0),
        |buffers| buffers.origin.truncate(516),
        |buffers| buffers.origin.clear(),
    ];
    for change in changes {
        let mut buffers = buffers.clone();
        change(&mut buffers);
        // Before 12, 6 and 7.
        buffers.extent = 0;
        buffers.numbers[0] = 1;
        let before = buffers.clone();
        assert_eq!(offered(&policy, &[], &buffers), refused(BUFFER_SIZE));
        assert_eq!(open(&policy, &mut buffers), refused(BUFFER_SIZE));
        assert_eq!(buffers, before);
        // After 1 to 4.
        assert_eq!(open(&with_lines(&[TRUE]), &mut buffers), refused(RULE_COUNT));
    }
}

#[test]
fn opening_writes_every_cell_whatever_it_held() {
    let (policy, expected) = fresh();
    let mut buffers = Buffers::sized(&sizes());
    buffers.numbers.fill(7);
    buffers.facts.fill(u32::MAX);
    buffers.valuation.fill(9);
    buffers.verdicts.fill(9);
    buffers.origin.fill(9);
    buffers.extent = 9;
    assert_eq!(open(&policy, &mut buffers), Answer::Done);
    assert_eq!(buffers, expected);
}

#[test]
fn knowledge_that_is_not_sound_is_6() {
    let (policy, fresh) = fresh();
    let bad: [fn(&mut Buffers); 11] = [
        |buffers| buffers.numbers[0] = 65535,
        |buffers| buffers.numbers[4] = 1,
        |buffers| buffers.numbers[1] = 2,
        |buffers| buffers.numbers[7] = 65534,
        |buffers| (buffers.numbers[1], buffers.numbers[2]) = (1, 0),
        |buffers| (buffers.numbers[1], buffers.numbers[3]) = (1, 0),
        |buffers| (buffers.numbers[5], buffers.numbers[6]) = (0, 2),
        |buffers| buffers.facts[1] = 1,
        |buffers| (buffers.facts[2], buffers.facts[3]) = (1, 2),
        |buffers| buffers.facts[4] = 4,
        |buffers| buffers.facts[4] = 1 << 31,
    ];
    for change in bad {
        let mut buffers = fresh.clone();
        change(&mut buffers);
        // Before 7, 8 and 9.
        for message in [&[][..], &[0x00], &[0x04, 2, 0], &[0x04, 1, 0]] {
            assert_eq!(offered(&policy, message, &buffers), refused(CORRUPT_KNOWLEDGE));
        }
    }
    let good: [fn(&mut Buffers); 4] = [
        |buffers| buffers.numbers[3] = 3,
        |buffers| (buffers.numbers[5], buffers.numbers[6], buffers.numbers[7]) = (0, 1, 1),
        |buffers| (buffers.facts[4], buffers.facts[5]) = (3, 2),
        |buffers| (buffers.valuation[0], buffers.verdicts[0]) = (9, 9),
    ];
    for change in good {
        let mut buffers = fresh.clone();
        change(&mut buffers);
        // The alive message changes nothing of the knowledge.
        assert_eq!(offered(&policy, &[0x10], &buffers), Answer::Received(busy_minutes(&buffers)));
    }
}

/// How many verdicts stand: the only rule is true everywhere, so as many as minutes are known busy.
fn busy_minutes(buffers: &Buffers) -> usize {
    (0..sizes().minutes).filter(|minute| known_busy(&sizes(), buffers, *minute)).count()
}

#[test]
fn a_conflict_is_9() {
    let (policy, mut buffers) = fresh();
    let bad: &[&[u8]] = &[
        &[0x04, 2, 0],             // count 2 at minute 0
        &[0x14, 1, 0],             // count 1 before minute 0
        &[0x16, 3, 0, 4, 0],       // count 4 in three minutes
        &[0x06, 2, 0, 4, 0],       // count 4 in three minutes
        &[0x06, 2, 0, 0xFF, 0xFF], // count 65535
        &[0x16, 3, 0, 0xFF, 0xFF], // count 65535
    ];
    for message in bad {
        assert_eq!(offered(&policy, message, &buffers), refused(CONFLICT), "{message:02X?}");
    }
    // Component 0 observed at minute 1, as its first, with proposition 0 true.
    let first = [0x0E, 1, 0, 1, 0, 1, 0, 0, 0, 1];
    assert_eq!(receive(&policy, &first, &mut buffers), Answer::Received(1));
    let bad: &[&[u8]] = &[
        &[0x04, 1, 0],                            // an observation before its first
        &[0x06, 1, 0, 2, 0],                      // another count
        &[0x06, 2, 0, 1, 0],                      // the same count later
        &[0x06, 2, 0, 3, 0],                      // a count between is missing
        &[0x12, 2, 0],                            // still 0 after minute 1
        &[0x0F, 1, 1, 0, 1, 0, 1, 0, 0, 0, 0],    // another component's other value
        &[0x0F, 1, 1, 0, 1, 0, 3, 0, 0, 0, 0b10], // one of two values is another
    ];
    for message in bad {
        assert_eq!(offered(&policy, message, &buffers), refused(CONFLICT), "{message:02X?}");
    }
    assert_eq!(offered(&policy, &[0x06, 2, 0, 2, 0], &buffers), Answer::Received(2));
    assert_eq!(offered(&policy, &[0x0F, 1, 1, 0, 2, 0, 1, 0, 0, 0, 1], &buffers), Answer::Received(2));
}

/// A single take tests that no byte follows before 8 and 9.
#[test]
fn bytes_that_follow_a_message_are_7() {
    let (policy, buffers) = fresh();
    for message in [&[0x00, 0x10][..], &[0x10, 0x10], &[0x24, 1, 0, 0x10], &[0x04, 2, 0, 0x10]] {
        let place = message.len() - 1;
        let cut = Answer::Refused(Refusal { number: TRUNCATED_MESSAGE, place });
        assert_eq!(offered(&policy, message, &buffers), cut, "{message:02X?}");
        assert_ne!(offered(&policy, &message[..place], &buffers), cut, "{message:02X?}");
    }
}

/// A packet, whose first message is refused if it has any.
fn none_taken(policy: &[u8], packet: &[u8], buffers: &Buffers) -> Option<(u8, usize)> {
    let mut after = buffers.clone();
    let PacketAnswer { taken, refusal } = receive_packet(policy, packet, &mut after);
    assert_eq!((taken, &after), (0, buffers));
    refusal.map(|Refusal { number, place }| (number, place))
}

/// Filled with what no call writes, in the sheets.
#[test]
fn a_packet_of_which_none_is_taken_changes_nothing() {
    let (policy, mut buffers) = fresh();
    buffers.valuation.fill(9);
    buffers.verdicts.fill(9);
    assert_eq!(none_taken(&policy, &[], &buffers), None);
    assert_eq!(none_taken(&policy, &[0x04, 1], &buffers), Some((7, 2)));
    assert_eq!(none_taken(&policy, &[0x00, 0x10], &buffers), Some((8, 0)));
    assert_eq!(none_taken(&policy, &[0x04, 2, 0, 0x10], &buffers), Some((9, 0)));
}

/// An empty packet has the checks 1 to 5, 12 and 6 too, and they keep their places.
#[test]
fn a_packet_checks_1_to_6_and_12_first() {
    let (policy, fresh) = fresh();
    let mut unsound = fresh.clone();
    unsound.numbers[0] = 1;
    let mut other = unsound.clone();
    other.extent = 7;
    let mut wrong_size = other.clone();
    wrong_size.verdicts.push(0);
    for packet in [&[][..], &[0x10, 0x10], &[0x10, 0x00], &[0x00], &[0x04]] {
        assert_eq!(none_taken(&policy[..4], packet, &fresh), Some((1, 4)));
        assert_eq!(none_taken(&[2, 17, 3, 0, 1, 0x20], packet, &fresh), Some((2, 1)));
        assert_eq!(none_taken(&with_lines(&[RULE, &[0x40]]), packet, &fresh), Some((3, 6)));
        assert_eq!(none_taken(&with_lines(&[TRUE]), packet, &wrong_size), Some((4, 0)));
        assert_eq!(none_taken(&policy, packet, &wrong_size), Some((5, 0)));
        assert_eq!(none_taken(&policy, packet, &other), Some((12, 0)));
        assert_eq!(none_taken(&policy, packet, &unsound), Some((6, 0)));
    }
}

#[test]
fn lookups_check_1_to_5_and_then_10() {
    let (policy, buffers) = fresh();
    let refused = |number, place| Look::Refused(Refusal { number, place });
    assert_eq!(lookup(&policy[..4], &buffers.verdicts, 9, 9), refused(TRUNCATED_POLICY, 4));
    assert_eq!(lookup(&with_lines(&[TRUE]), &buffers.verdicts, 9, 9), refused(RULE_COUNT, 0));
    assert_eq!(lookup(&policy, &[0; 4], 9, 9), refused(BUFFER_SIZE, 0));
    assert_eq!(lookup(&policy, &[0; 2], 0, 0), refused(BUFFER_SIZE, 0));
    assert_eq!(lookup(&policy, &[0; 3], 1, 0), refused(OUT_OF_RANGE, 0));
    assert_eq!(lookup(&policy, &[0; 3], 0, 3), refused(OUT_OF_RANGE, 0));
    assert_eq!(lookup(&policy, &[0; 3], usize::MAX, usize::MAX), refused(OUT_OF_RANGE, 0));
    assert_eq!(lookup(&policy, &[0, 0, 2], 0, 2), Look::Verdict(Verdict::Violated));
}
