//! Random policies, traces, messages, fields, damage, swapped policies and program inputs, the same for the same seed.

use crate::knowledge::{origin_of, Buffers, NOT_KNOWN};
use crate::message::{Event, Message, ALIVE_BIT};
use crate::policy::*;
use crate::reach::complete;
use crate::trace::Trace;
use crate::write::{Line, MessageFields, PolicyFields};

/// A small generator of numbers (splitmix64).
pub struct Random {
    state: u64,
}

impl Random {
    pub fn new(seed: u64) -> Random {
        Random { state: seed }
    }

    pub fn word(&mut self) -> u64 {
        self.state = self.state.wrapping_add(0x9E37_79B9_7F4A_7C15);
        let mut z = self.state;
        z = (z ^ (z >> 30)).wrapping_mul(0xBF58_476D_1CE4_E5B9);
        z = (z ^ (z >> 27)).wrapping_mul(0x94D0_49BB_1331_11EB);
        z ^ (z >> 31)
    }

    /// A number below `end`, which is not 0.
    pub fn below(&mut self, end: usize) -> usize {
        (self.word() % end as u64) as usize
    }

    /// A number from `low` to `high`, both among them.
    pub fn between(&mut self, low: usize, high: usize) -> usize {
        low + self.below(high - low + 1)
    }

    /// True once in `times`.
    pub fn once_in(&mut self, times: usize) -> bool {
        self.below(times) == 0
    }

    pub fn pick<T: Copy>(&mut self, items: &[T]) -> T {
        items[self.below(items.len())]
    }

    /// The items in a random order.
    pub fn shuffle<T>(&mut self, items: &mut [T]) {
        for end in (1..items.len()).rev() {
            items.swap(end, self.below(end + 1));
        }
    }
}

/// The most of everything that a random policy may have.
#[derive(Clone, Copy, Debug)]
pub struct Limits {
    pub propositions: usize,
    pub components: usize,
    pub minutes: usize,
    pub subformulas: usize,
    /// The highest bound of an interval.
    pub bound: usize,
}

/// Small enough for `brute`.
pub const TINY: Limits = Limits { propositions: 2, components: 2, minutes: 3, subformulas: 6, bound: 4 };
/// Read by the plain sums.
pub const SMALL: Limits = Limits { propositions: 4, components: 3, minutes: 12, subformulas: 12, bound: 14 };
pub const MEDIUM: Limits = Limits { propositions: 12, components: 6, minutes: 90, subformulas: 30, bound: 120 };
pub const LARGEST: Limits = Limits {
    propositions: MOST_PROPOSITIONS,
    components: MOST_COMPONENTS,
    minutes: MOST_MINUTES,
    subformulas: MOST_SUBFORMULAS,
    bound: HIGHEST_BOUND,
};

/// A policy with from 1 up to the limits of everything.
pub fn policy(random: &mut Random, limits: &Limits) -> Policy {
    let sizes = Limits {
        propositions: random.between(1, limits.propositions),
        components: random.between(1, limits.components),
        minutes: random.between(1, limits.minutes),
        subformulas: random.between(1, limits.subformulas),
        bound: limits.bound,
    };
    let most_rules = sizes.subformulas.min(MOST_RULES);
    let rules = random.between(1, most_rules);
    policy_of(random, &sizes, rules)
}

/// A policy that has all of the largest sizes, and as many rules as there can be.
pub fn largest_policy(random: &mut Random) -> Policy {
    policy_of(random, &LARGEST, MOST_RULES)
}

/// A policy of exactly these sizes.
pub fn policy_of(random: &mut Random, sizes: &Limits, rules: usize) -> Policy {
    let mut is_rule = vec![false; sizes.subformulas];
    is_rule[sizes.subformulas - rules..].fill(true);
    if random.once_in(2) {
        random.shuffle(&mut is_rule);
    }
    let subformulas = is_rule
        .into_iter()
        .enumerate()
        .map(|(number, rule)| Subformula { formula: formula(random, number, sizes), rule })
        .collect();
    Policy { propositions: sizes.propositions, components: sizes.components, minutes: sizes.minutes, subformulas }
}

/// A formula for the subformula with this number, of any of the twelve kinds; since and until more often.
fn formula(random: &mut Random, number: usize, sizes: &Limits) -> Formula {
    let leaves = sizes.propositions.min(1 + sizes.subformulas / 3);
    if number < leaves || random.once_in(8) {
        return leaf(random, sizes);
    }
    let first = operand(random, number);
    let second = operand(random, number);
    let (lower, upper) = interval(random, sizes.bound);
    let parts = Temporal { first, second, lower, upper };
    let span = Span { first, lower, upper };
    match random.below(12) {
        0 => Formula::Not(first),
        1 => Formula::Or(first, second),
        2 | 3 => Formula::Since(parts),
        4 | 5 => Formula::Until(parts),
        6 => Formula::And(first, second),
        7 => Formula::Implies(first, second),
        8 => Formula::Once(span),
        9 => Formula::Historically(span),
        10 => Formula::Eventually(span),
        _ => Formula::Always(span),
    }
}

fn leaf(random: &mut Random, sizes: &Limits) -> Formula {
    if random.once_in(5) {
        Formula::True
    } else {
        Formula::Proposition(random.below(sizes.propositions))
    }
}

/// An earlier subformula, near ones more often.
fn operand(random: &mut Random, number: usize) -> usize {
    if random.once_in(2) {
        random.below(number)
    } else {
        number - 1 - random.below(number.min(4))
    }
}

/// Lower and upper, short intervals more often.
fn interval(random: &mut Random, bound: usize) -> (usize, usize) {
    let most = random.below(bound + 1);
    let upper = if random.once_in(2) { random.between(0, most) } else { most };
    let lower = if random.once_in(2) { 0 } else { random.between(0, upper) };
    (lower, upper)
}

/// Fields as they are written: those that are not 0, and those that `forced` asks for though they are 0.
struct Encoding {
    /// The map's bits that are no field's.
    flags: u8,
    /// Value and size in bytes of each field.
    fields: Vec<(usize, usize)>,
    /// The bits of fields to write even if they are 0.
    forced: u8,
}

impl Encoding {
    fn bytes(&self) -> Vec<u8> {
        let mut bytes = vec![self.flags];
        for (bit, (value, size)) in self.fields.iter().enumerate() {
            if *value != 0 || self.forced >> bit & 1 == 1 {
                bytes[0] |= 1 << bit;
                bytes.extend(&value.to_le_bytes()[..*size]);
            }
        }
        bytes
    }
}

/// A policy's heading and lines as numbers, which damage may then change.
struct RawPolicy {
    /// Value and size in bytes of propositions, components, minutes and number of lines.
    heading: Vec<(usize, usize)>,
    lines: Vec<Encoding>,
}

impl RawPolicy {
    fn of(policy: &Policy) -> RawPolicy {
        let lines = policy.subformulas.len();
        RawPolicy {
            heading: vec![(policy.propositions, 1), (policy.components, 1), (policy.minutes, 2), (lines, 1)],
            lines: policy.subformulas.iter().map(raw_line).collect(),
        }
    }

    fn bytes(&self) -> Vec<u8> {
        let heading = self.heading.iter().flat_map(|(value, size)| value.to_le_bytes()[..*size].to_vec());
        heading.chain(self.lines.iter().flat_map(Encoding::bytes)).collect()
    }
}

fn raw_line(subformula: &Subformula) -> Encoding {
    let Line { kind, first, second, lower, upper, rule } = Line::from(subformula);
    let fields = [(kind, 1), (first, 1), (second, 1), (lower, 2), (upper, 2)];
    let fields = fields.map(|(value, size)| (usize::from(value), size)).to_vec();
    Encoding { flags: u8::from(rule) << RULE_BIT, fields, forced: 0 }
}

/// The bytes of a policy.
pub fn encode_policy(policy: &Policy) -> Vec<u8> {
    RawPolicy::of(policy).bytes()
}

/// The bytes of a message.
pub fn encode_message(message: &Message) -> Vec<u8> {
    let MessageFields { component, alive, minute, number, named, values } = MessageFields::from(message);
    let mut bytes = message_encoding(u8::from(alive) << ALIVE_BIT, component, minute, number, named).bytes();
    bytes.extend(value_bytes(named, values));
    bytes
}

fn message_encoding(flags: u8, component: usize, minute: usize, number: usize, named: u32) -> Encoding {
    let fields = vec![(component, 1), (minute, 2), (number, 2), (named as usize, 4)];
    Encoding { flags, fields, forced: 0 }
}

/// The values of the named propositions, packed.
fn value_bytes(named: u32, values: u32) -> Vec<u8> {
    let mut bytes = vec![0; (named.count_ones() as usize).div_ceil(8)];
    let named_ones = (0..u32::BITS).filter(|proposition| named >> proposition & 1 == 1);
    for (j, proposition) in named_ones.enumerate() {
        bytes[j / 8] |= ((values >> proposition & 1) as u8) << (j % 8);
    }
    bytes
}

/// A trace that runs `past` minutes past the policy's last. How often components observe differs from trace to trace.
pub fn trace(random: &mut Random, policy: &Policy, past: usize) -> Trace {
    let length = policy.minutes + past;
    let seldom = random.between(1, 6);
    let mut observes = |_| (0..length).map(|_| random.once_in(seldom)).collect();
    let observed = (0..policy.components).map(&mut observes).collect();
    let values = (0..length).map(|_| random.word() as u32 & all_propositions(policy)).collect();
    Trace { observed, values }
}

/// One bit for each proposition of the policy.
pub fn all_propositions(policy: &Policy) -> u32 {
    ((1u64 << policy.propositions) - 1) as u32
}

/// The observation of the component at the minute, naming these propositions, as the trace sends it.
fn observation(trace: &Trace, component: usize, minute: usize, named: u32) -> Message {
    let number = trace.number(component, minute + 1);
    let values = trace.values[minute] & named;
    Message { component, event: Event::Observation { minute, number, named, values } }
}

fn alive(trace: &Trace, component: usize, minute: usize) -> Message {
    Message { component, event: Event::Alive { minute, number: trace.number(component, minute) } }
}

/// Every observation of the trace with every proposition, and an alive message of each component at the last minute:
/// all that there is to know of the trace.
pub fn every_message(policy: &Policy, trace: &Trace) -> Vec<Message> {
    let mut messages = Vec::new();
    for component in 0..policy.components {
        let minutes = (0..policy.minutes).filter(|minute| trace.observed[component][*minute]);
        messages.extend(minutes.map(|minute| observation(trace, component, minute, all_propositions(policy))));
        messages.push(alive(trace, component, policy.minutes));
    }
    messages
}

/// A message that the trace could have sent.
pub fn message(random: &mut Random, policy: &Policy, trace: &Trace) -> Message {
    let component = random.below(policy.components);
    let minutes: Vec<usize> = (0..policy.minutes).filter(|minute| trace.observed[component][*minute]).collect();
    if minutes.is_empty() || random.once_in(4) {
        let minute = if random.once_in(3) { policy.minutes } else { random.between(0, policy.minutes) };
        return alive(trace, component, minute);
    }
    let minute = random.pick(&minutes);
    let named = if random.once_in(3) { u32::MAX } else { random.word() as u32 };
    observation(trace, component, minute, named & all_propositions(policy))
}

/// Messages that the trace could have sent, in random order, some repeated and some lost.
pub fn messages(random: &mut Random, policy: &Policy, trace: &Trace, count: usize) -> Vec<Message> {
    let mut messages: Vec<Message> = (0..count).map(|_| message(random, policy, trace)).collect();
    for _ in 0..count / 4 {
        let again = random.pick(&messages);
        messages.push(again);
    }
    random.shuffle(&mut messages);
    messages
}

/// Bytes to offer to receive: most of them messages of the trace, some of them damaged, some not of any trace.
pub fn offers(random: &mut Random, policy: &Policy, trace: &Trace, count: usize) -> Vec<Vec<u8>> {
    let messages = messages(random, policy, trace, count);
    let mut offer = |message: &Message| match random.below(8) {
        0 => damaged(random, &encode_message(message)),
        1 => stray_message(random, policy),
        _ => encode_message(message),
    };
    messages.iter().map(&mut offer).collect()
}

/// The bytes cut, extended, with a bit flipped, a byte cleared or a byte replaced.
pub fn damaged(random: &mut Random, bytes: &[u8]) -> Vec<u8> {
    let mut bytes = bytes.to_vec();
    let kind = random.below(5);
    if bytes.is_empty() || kind == 0 {
        let more = random.between(1, 3);
        bytes.extend((0..more).map(|_| random.word() as u8 & random.word() as u8));
        return bytes;
    }
    let place = random.below(bytes.len());
    match kind {
        1 => bytes.truncate(place),
        2 => bytes[place] ^= 1 << random.below(8),
        3 => bytes[place] = 0,
        _ => bytes[place] = random.word() as u8,
    }
    bytes
}

/// A message whose fields stand at, just below and past the ends of their ranges, some zeros written. Its length is
/// right; few are well-formed, and fewer are any trace's.
pub fn stray_message(random: &mut Random, policy: &Policy) -> Vec<u8> {
    let last = policy.minutes - 1;
    let component = random.pick(&[0, 0, policy.components - 1, policy.components, 255]);
    let minute = random.pick(&[0, 0, 1, last, last, last + 1, last + 2, 65535]);
    let number = random.pick(&[0, 1, 1, 2, minute.min(last), minute.min(last) + 1, minute.min(last) + 2, 65534, 65535]);
    let named = match random.below(4) {
        0 => 0,
        1 => random.word() as u32,
        _ => random.word() as u32 & all_propositions(policy),
    };
    let flags = random.pick(&[0, 0, 0, 1, 1, 1, 2, 4, 8]) << ALIVE_BIT;
    let mut encoding = message_encoding(flags, component, minute, number, named);
    if random.once_in(6) {
        encoding.forced = 1 << random.below(encoding.fields.len());
    }
    let mut values = value_bytes(named, random.word() as u32);
    if let (true, Some(byte)) = (random.once_in(6), values.last_mut()) {
        *byte |= 1 << random.below(8);
    }
    [encoding.bytes(), values].concat()
}

/// The policy's bytes with one number of the heading or of a line at, or past, the end of its range, a map bit changed,
/// a zero written, a line too many or too few, or no rule or nine of them. Some are still right.
pub fn stray_policy(random: &mut Random, policy: &Policy) -> Vec<u8> {
    let mut raw = RawPolicy::of(policy);
    let lines = raw.lines.len();
    let number = random.below(lines);
    match random.below(6) {
        0 => stray_heading(random, &mut raw),
        1 | 2 => stray_field(random, &mut raw.lines[number], number),
        3 => raw.lines[number].forced = 1 << random.below(5),
        4 => raw.lines[number].flags ^= 1 << random.between(5, 7),
        _ => stray_rules(random, &mut raw),
    }
    raw.bytes()
}

fn stray_heading(random: &mut Random, raw: &mut RawPolicy) {
    let most = [MOST_PROPOSITIONS, MOST_COMPONENTS, MOST_MINUTES, MOST_SUBFORMULAS];
    let field = random.below(most.len());
    let (value, size) = raw.heading[field];
    let highest = 256usize.pow(size as u32) - 1;
    raw.heading[field].0 = random.pick(&[0, value - 1, value + 1, most[field], most[field] + 1, highest]);
}

fn stray_field(random: &mut Random, line: &mut Encoding, number: usize) {
    let field = random.below(line.fields.len());
    line.fields[field].0 = match field {
        KIND => random.pick(&[0, 1, 2, 3, 4, 5, 6, 7, 8, 9, 10, 11, 12, 13, 255]),
        LOWER | UPPER => random.pick(&[0, 1, 2, HIGHEST_BOUND, HIGHEST_BOUND + 1, 65535]),
        _ => random.pick(&[0, number.saturating_sub(1), number, number + 1, 31, 32, 255]),
    };
}

fn stray_rules(random: &mut Random, raw: &mut RawPolicy) {
    let rules = random.pick(&[0, MOST_RULES, MOST_RULES + 1]);
    for (number, line) in raw.lines.iter_mut().enumerate() {
        line.flags = u8::from(number < rules) << RULE_BIT;
    }
}

/// The policy's fields with up to three of them at, or past, an end of their ranges, lines too many or too few, or other
/// rules. Some are still right.
pub fn stray_policy_fields(random: &mut Random, policy: &Policy) -> PolicyFields {
    let mut fields = PolicyFields::from(policy);
    for _ in 0..random.below(4) {
        match random.below(8) {
            0 => stray_sizes(random, &mut fields),
            1 | 2 => stray_rule_fields(random, &mut fields.lines),
            _ => stray_line(random, &mut fields.lines),
        }
    }
    fields
}

fn stray_sizes(random: &mut Random, fields: &mut PolicyFields) {
    let near = |random: &mut Random, value: usize, most: usize| {
        random.pick(&[0, 1, most, most, most + 1, value.wrapping_add(256), value.wrapping_add(65536), usize::MAX])
    };
    match random.below(4) {
        0 => fields.propositions = near(random, fields.propositions, MOST_PROPOSITIONS),
        1 => fields.components = near(random, fields.components, MOST_COMPONENTS),
        2 => fields.minutes = near(random, fields.minutes, MOST_MINUTES),
        _ => {
            let lines = fields.lines.len();
            let lines = random.pick(&[
                0,
                1,
                lines.saturating_sub(1),
                lines + 1,
                MOST_SUBFORMULAS,
                MOST_SUBFORMULAS + 1,
                lines + 256,
            ]);
            fields.lines.resize(lines, Line::default());
        }
    }
}

fn stray_line(random: &mut Random, lines: &mut [Line]) {
    if lines.is_empty() {
        return;
    }
    let number = random.below(lines.len());
    let near = (number as u16).saturating_sub(1);
    let Line { kind, first, second, lower, upper, .. } = &mut lines[number];
    let (field, ends): (_, &[u16]) = match random.below(5) {
        0 => (kind, &[0, 1, 2, 3, 4, 5, 6, 7, 8, 9, 10, 11, 12, 255]),
        1 => (first, &[0, near, near + 1, near + 2, 31, 32, 255, 256]),
        2 => (second, &[0, near, near + 1, near + 2, 31, 32, 255, 256]),
        3 => (lower, &[0, 0, 1, 2, 255, 256, 1023, 1024]),
        _ => (upper, &[0, 1, 2, 1022, 1023, 1023, 1024, 65535]),
    };
    *field = if random.once_in(6) { field.wrapping_add(256) } else { random.pick(ends) };
}

fn stray_rule_fields(random: &mut Random, lines: &mut [Line]) {
    let rules = random.pick(&[0, 1, MOST_RULES, MOST_RULES + 1]);
    lines.iter_mut().enumerate().for_each(|(number, line)| line.rule = number < rules);
}

/// The fields of a message, each of them once in six times at, just below or past an end of its range. Some are right.
pub fn stray_message_fields(random: &mut Random, policy: &Policy) -> MessageFields {
    let (components, minutes) = (policy.components, policy.minutes);
    let alive = random.once_in(3);
    let named = if alive { 0 } else { random.word() as u32 & random.word() as u32 & all_propositions(policy) };
    let mut fields = MessageFields {
        component: random.below(components),
        alive,
        minute: random.below(minutes),
        number: random.between(1, minutes),
        named,
        values: random.word() as u32 & named,
    };
    if random.once_in(6) {
        fields.component = random.pick(&[0, components - 1, components, components + 255, 256, usize::MAX]);
    }
    if random.once_in(6) {
        fields.minute = random.pick(&[0, minutes - 1, minutes, minutes + 1, minutes + 65535, usize::MAX]);
    }
    if random.once_in(6) {
        fields.number = random.pick(&[0, 65534, 65535, 65536, 65537, usize::MAX]);
    }
    if random.once_in(6) {
        let bit = 1 << random.below(32);
        fields.named = random.pick(&[0, bit, named | bit, u32::MAX]);
    }
    if random.once_in(6) {
        let bit = 1 << random.below(32);
        fields.values = random.pick(&[0, bit, named, u32::MAX]);
    }
    fields
}

/// Changes a few cells, of the knowledge and of the sheets.
pub fn damage_buffers(random: &mut Random, policy: &Policy, buffers: &mut Buffers) {
    for _ in 0..random.between(1, 3) {
        match random.below(8) {
            0..=3 => damage_number(random, policy, buffers),
            4 | 5 => damage_fact(random, policy, buffers),
            6 => damage_sheets(random, buffers),
            _ => damage_origin(random, policy, buffers),
        }
    }
}

fn damage_number(random: &mut Random, policy: &Policy, buffers: &mut Buffers) {
    let cell = random.below(buffers.numbers.len());
    let place = (cell % (policy.minutes + 1)) as u16;
    let near = buffers.numbers[cell.saturating_sub(1)];
    buffers.numbers[cell] = random.pick(&[
        0,
        1,
        place,
        place + 1,
        near,
        near.wrapping_add(1),
        near.wrapping_sub(1),
        NOT_KNOWN,
        NOT_KNOWN - 1,
    ]);
}

fn damage_fact(random: &mut Random, policy: &Policy, buffers: &mut Buffers) {
    let minute = random.below(policy.minutes);
    let most = if random.once_in(3) { MOST_PROPOSITIONS } else { policy.propositions };
    let bit = 1 << random.below(most);
    match random.below(3) {
        0 => buffers.facts[2 * minute] ^= bit,
        1 => buffers.facts[2 * minute + 1] ^= bit,
        _ => {
            buffers.facts[2 * minute] |= bit;
            buffers.facts[2 * minute + 1] |= bit;
        }
    }
}

fn damage_sheets(random: &mut Random, buffers: &mut Buffers) {
    let cell = random.below(buffers.valuation.len());
    buffers.valuation[cell] = random.word() as u8;
    let cell = random.below(buffers.verdicts.len());
    buffers.verdicts[cell] = random.word() as u8;
}

/// Changes a byte of the policy or one of the zeros after it, or the extent, or makes both another policy's, or those of
/// the policy cut by some bytes.
pub fn damage_origin(random: &mut Random, policy: &Policy, buffers: &mut Buffers) {
    let bytes = encode_policy(policy);
    let length = bytes.len();
    match random.below(6) {
        0 | 1 => buffers.origin[random.below(length)] ^= 1 << random.below(8),
        2 => {
            let place = random.between(length, MOST_BYTES - 1);
            buffers.origin[random.pick(&[length, place, MOST_BYTES - 1])] = random.between(1, 255) as u8;
        }
        3 => {
            let flipped = length ^ 1 << random.below(16);
            let any = random.word() as usize;
            let near = [0, length - 1, length + 1, flipped, MOST_BYTES, MOST_BYTES + 1, 65535, any];
            buffers.extent = random.pick(&near) as u16;
        }
        4 => (buffers.origin, buffers.extent) = origin_of(&bytes[..random.below(length)]),
        _ => (buffers.origin, buffers.extent) = origin_of(&encode_policy(&other_policy(random, policy))),
    }
}

/// Knowledge that, though sound, no messages may have made: from a trace's numbers and facts, some are kept. It is
/// opened under the policy. The sheets are left as they are.
pub fn sound_knowledge(random: &mut Random, policy: &Policy, trace: &Trace, buffers: &mut Buffers) {
    (buffers.origin, buffers.extent) = origin_of(&encode_policy(policy));
    buffers.forget(policy);
    let seldom = random.between(1, 4);
    for component in 0..policy.components {
        for place in 1..=policy.minutes {
            if random.once_in(seldom) {
                let number = trace.number(component, place) as u16;
                buffers.numbers[component * (policy.minutes + 1) + place] = number;
            }
        }
    }
    for minute in 0..policy.minutes {
        let known = random.word() as u32 & all_propositions(policy);
        buffers.facts[2 * minute] = known;
        buffers.facts[2 * minute + 1] = trace.values[minute] & known;
    }
}

/// Knowledge of a trace that is complete, as request 8 of document 02 asks: the facts at its busy minutes all stand,
/// and some of those at its quiet ones. Its numbers all stand too; or, every other time, they are forgotten one by one
/// where it is complete without. It is opened under the policy. The sheets are left as they are.
pub fn complete_knowledge(random: &mut Random, policy: &Policy, trace: &Trace, buffers: &mut Buffers) {
    (buffers.origin, buffers.extent) = origin_of(&encode_policy(policy));
    let places = policy.minutes + 1;
    for cell in 0..buffers.numbers.len() {
        buffers.numbers[cell] = trace.number(cell / places, cell % places) as u16;
    }
    for minute in 0..policy.minutes {
        let busy = trace.time_point(minute as i64);
        let known = if busy { u32::MAX } else { random.word() as u32 } & all_propositions(policy);
        buffers.facts[2 * minute] = known;
        buffers.facts[2 * minute + 1] = trace.values[minute] & known;
    }
    if random.once_in(2) {
        forget_numbers(random, policy, buffers);
    }
}

/// Forgets the numbers of complete knowledge in random order, all but the first ones and those that it needs.
fn forget_numbers(random: &mut Random, policy: &Policy, buffers: &mut Buffers) {
    let mut cells: Vec<usize> = (0..buffers.numbers.len()).collect();
    cells.retain(|cell| cell % (policy.minutes + 1) != 0);
    random.shuffle(&mut cells);
    for cell in cells {
        let number = std::mem::replace(&mut buffers.numbers[cell], NOT_KNOWN);
        if !complete(policy, buffers) {
            buffers.numbers[cell] = number;
        }
    }
}

/// Makes one buffer too long or too short.
pub fn resize_buffers(random: &mut Random, buffers: &mut Buffers) {
    fn resize<T: Default + Clone>(random: &mut Random, buffer: &mut Vec<T>) {
        let shorter = random.below(buffer.len());
        let longer = buffer.len() + random.between(1, 3);
        let length = random.pick(&[shorter, buffer.len() - 1, longer, 0]);
        buffer.resize(length, T::default());
    }
    match random.below(5) {
        0 => resize(random, &mut buffers.numbers),
        1 => resize(random, &mut buffers.facts),
        2 => resize(random, &mut buffers.valuation),
        3 => resize(random, &mut buffers.verdicts),
        _ => resize(random, &mut buffers.origin),
    }
}

/// A policy to swap this one for: one number changed or other subformulas, in buffers of the same sizes; or any policy
/// of at most one more of everything, which now and then is the same.
pub fn other_policy(random: &mut Random, policy: &Policy) -> Policy {
    let sizes = Limits {
        propositions: random.between(1, MOST_PROPOSITIONS),
        components: policy.components,
        minutes: policy.minutes,
        subformulas: policy.subformulas.len(),
        bound: HIGHEST_BOUND.min(policy.minutes + 2),
    };
    let larger = Limits {
        components: MOST_COMPONENTS.min(sizes.components + 1),
        minutes: MOST_MINUTES.min(sizes.minutes + 1),
        subformulas: MOST_SUBFORMULAS.min(sizes.subformulas + 1),
        ..sizes
    };
    match random.below(4) {
        0 => self::policy(random, &larger),
        1 => policy_of(random, &sizes, policy.rules().len()),
        _ => near_policy(random, policy),
    }
}

/// Another policy with buffers of the same sizes, mostly with one number changed.
fn near_policy(random: &mut Random, policy: &Policy) -> Policy {
    loop {
        match read(&stray_policy(random, policy)) {
            Ok(near) if near != *policy && same_sizes(&near, policy) => return near,
            _ => (),
        }
    }
}

/// Whether the buffers of the two policies have the same sizes.
fn same_sizes(one: &Policy, other: &Policy) -> bool {
    Buffers::sized(one).fit(other)
}

/// The policy, `count` others to swap it for, and one or two that mostly are no policies: the bytes of one of these cut,
/// followed by zeros or damaged, or stray ones.
pub fn swaps(random: &mut Random, policy: &Policy, count: usize) -> Vec<Vec<u8>> {
    let mut swaps = vec![encode_policy(policy)];
    swaps.extend((0..count).map(|_| encode_policy(&other_policy(random, policy))));
    for _ in 0..random.between(1, 2) {
        let mut bytes = swaps[random.below(swaps.len())].clone();
        match random.below(4) {
            0 => bytes.truncate(random.below(bytes.len().max(1))),
            1 => bytes.resize(bytes.len() + random.between(1, 3), 0),
            2 => bytes = damaged(random, &bytes),
            _ => bytes = stray_policy(random, policy),
        }
        swaps.push(bytes);
    }
    swaps
}

/// A call, with the policy that it is lent.
#[derive(Clone, Debug)]
pub struct Call {
    pub policy: Vec<u8>,
    pub kind: Kind,
}

/// Which call it is, and what is offered.
#[derive(Clone, Debug)]
pub enum Kind {
    Open,
    Receive(Vec<u8>),
    ReceivePacket(Vec<u8>),
}

/// Calls that are lent these policies at will, the first of which is one; two in three are lent the same as the last
/// opening. What is offered under a policy is mostly of one trace, so that most of it is accepted after an opening.
pub fn calls(random: &mut Random, policies: &[Vec<u8>], count: usize) -> Vec<Call> {
    let first = read(&policies[0]).expect("the first is a policy");
    let policy_of = |bytes: &Vec<u8>| read(bytes).unwrap_or_else(|_| first.clone());
    let mut with_trace = |policy: Policy| (trace(random, &policy, 1), policy);
    let senders: Vec<(Trace, Policy)> = policies.iter().map(policy_of).map(&mut with_trace).collect();
    let mut last = 0;
    let mut call = |_| {
        let lent = if random.once_in(3) { random.below(policies.len()) } else { last };
        let (trace, sender) = &senders[lent];
        let kind = match random.below(6) {
            0 => {
                last = lent;
                Kind::Open
            }
            1 => {
                let count = random.below(4);
                Kind::ReceivePacket(offers(random, sender, trace, count).concat())
            }
            _ => Kind::Receive(offers(random, sender, trace, 1).concat()),
        };
        Call { policy: policies[lent].clone(), kind }
    };
    (0..count).map(&mut call).collect()
}

/// A standard input for the printing program: some with a refused or overlong policy, some with a wrong length, some
/// cut.
pub fn program_input(random: &mut Random, limits: &Limits, count: usize) -> Vec<u8> {
    let policy = policy(random, limits);
    let trace = trace(random, &policy, 2);
    let bytes = match random.below(10) {
        0 => damaged(random, &encode_policy(&policy)),
        1 => stray_policy(random, &policy),
        _ => encode_policy(&policy),
    };
    let length = match random.below(12) {
        0 => random.pick(&[0, 1, bytes.len().saturating_sub(1), bytes.len() + 1, MOST_BYTES, MOST_BYTES + 1, 65535]),
        _ => bytes.len(),
    };
    let mut input = (length as u16).to_le_bytes().to_vec();
    input.extend(bytes);
    for message in offers(random, &policy, &trace, count) {
        let wrong = random.once_in(40);
        input.push(if wrong { random.word() as u8 } else { message.len() as u8 });
        input.extend(message);
    }
    if random.once_in(4) {
        input.truncate(random.below(input.len()));
    }
    input
}
