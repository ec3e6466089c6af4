//! Random inputs that more than one test uses, beside those of `oracle::generate`.

use oracle::generate::{self, Limits, Random, LARGEST, MEDIUM, SMALL, TINY};
use oracle::message;
use oracle::policy::{Formula, Policy, HIGHEST_BOUND, MOST_MINUTES, MOST_RULES};
use oracle::trace::Trace;
use oracle::{Buffers, Refusal};

/// How large a policy is.
#[derive(Clone, Copy, Debug, PartialEq, Eq)]
pub enum Size {
    Tiny,
    Small,
    Medium,
    /// The most of everything but minutes.
    Wide,
    /// The most minutes, and few subformulas.
    Long,
    /// The most of everything: an interval ends at the highest bound.
    Largest,
}

impl Size {
    pub const ALL: [Size; 6] = [Size::Tiny, Size::Small, Size::Medium, Size::Wide, Size::Long, Size::Largest];
}

pub fn policy(random: &mut Random, size: Size) -> Policy {
    let mut policy = match size {
        Size::Tiny => generate::policy(random, &TINY),
        Size::Small => generate::policy(random, &SMALL),
        Size::Medium => generate::policy(random, &MEDIUM),
        Size::Wide => {
            let minutes = random.between(25, 40);
            generate::policy_of(random, &Limits { minutes, ..LARGEST }, MOST_RULES)
        }
        Size::Long => generate::policy_of(random, &Limits { minutes: MOST_MINUTES, bound: HIGHEST_BOUND, ..SMALL }, 3),
        Size::Largest => generate::largest_policy(random),
    };
    if size == Size::Largest {
        widen(random, &mut policy);
    }
    policy
}

/// Makes one random interval end at the highest bound.
fn widen(random: &mut Random, policy: &mut Policy) {
    let mut uppers = uppers(policy);
    let one = random.below(uppers.len());
    *uppers[one] = HIGHEST_BOUND;
}

/// The upper ends of the policy's intervals.
fn uppers(policy: &mut Policy) -> Vec<&mut usize> {
    fn upper(formula: &mut Formula) -> Option<&mut usize> {
        match formula {
            Formula::Since(parts) | Formula::Until(parts) => Some(&mut parts.upper),
            Formula::Once(span) | Formula::Historically(span) | Formula::Eventually(span) | Formula::Always(span) => {
                Some(&mut span.upper)
            }
            _ => None,
        }
    }
    policy.subformulas.iter_mut().filter_map(|line| upper(&mut line.formula)).collect()
}

/// Whether the policy has all of the largest sizes.
pub fn is_largest(policy: &Policy) -> bool {
    let sizes = [policy.propositions, policy.components, policy.minutes, policy.subformulas.len()];
    let bound = uppers(&mut policy.clone()).iter().any(|upper| **upper == HIGHEST_BOUND);
    sizes == [32, 16, 1024, 64] && policy.rules().len() == 8 && bound
}

/// Buffers of the exact sizes, with anything in them.
pub fn filled_buffers(random: &mut Random, policy: &Policy) -> Buffers {
    let mut buffers = Buffers::sized(policy);
    buffers.numbers.fill_with(|| random.word() as u16);
    buffers.facts.fill_with(|| random.word() as u32);
    buffers.origin.fill_with(|| random.word() as u8);
    buffers.extent = random.word() as u16;
    fill_sheets(random, &mut buffers);
    buffers
}

/// Puts anything in both sheets, the codes that a call writes and others.
pub fn fill_sheets(random: &mut Random, buffers: &mut Buffers) {
    let codes = random.pick(&[3, 4, 256]);
    buffers.valuation.fill_with(|| random.below(codes) as u8);
    buffers.verdicts.fill_with(|| random.below(codes) as u8);
}

/// A trace with many observations, or one with at most `few`.
pub fn trace(random: &mut Random, policy: &Policy, few: usize) -> Trace {
    if random.once_in(2) {
        return few_observations(random, policy, few);
    }
    let past = random.below(4);
    generate::trace(random, policy, past)
}

/// A trace with at most `few` observations, so that few messages tell all of it.
pub fn few_observations(random: &mut Random, policy: &Policy, few: usize) -> Trace {
    let mut trace = generate::trace(random, policy, 2);
    trace.observed.iter_mut().for_each(|minutes| minutes.fill(false));
    for _ in 0..few {
        trace.observed[random.below(policy.components)][random.below(policy.minutes)] = true;
    }
    trace
}

/// Messages of the trace, as bytes and in no order: all that there is to know if they are at most `most`, else `most`
/// random ones, some repeated.
pub fn sent(random: &mut Random, policy: &Policy, trace: &Trace, most: usize) -> Vec<Vec<u8>> {
    let every = generate::every_message(policy, trace);
    let mut messages = if every.len() <= most { every } else { generate::messages(random, policy, trace, most) };
    random.shuffle(&mut messages);
    messages.iter().map(generate::encode_message).collect()
}

/// Bytes of a length up to `longest`, short lengths more often.
pub fn noise(random: &mut Random, longest: usize) -> Vec<u8> {
    let most = random.below(longest + 1);
    let length = random.below(most + 1);
    (0..length).map(|_| (random.word() & random.word()) as u8).collect()
}

/// One take of a list.
pub struct Offer {
    pub bytes: Vec<u8>,
    /// Why it has to be refused, if it is ill-formed.
    pub refusal: Option<Refusal>,
}

/// The messages in a random order, some of them again, with ill-formed bytes between, once or up to `most` times.
pub fn list(random: &mut Random, policy: &Policy, messages: &[Vec<u8>], most: usize) -> Vec<Offer> {
    let well_formed = |bytes: &Vec<u8>| Offer { bytes: bytes.clone(), refusal: None };
    let mut offers: Vec<Offer> = messages.iter().map(well_formed).collect();
    for _ in 0..random.below(messages.len() + 1) {
        offers.push(well_formed(&messages[random.below(messages.len())]));
    }
    for _ in 0..random.between(1, most) {
        offers.push(ill_formed(random, policy, messages));
    }
    random.shuffle(&mut offers);
    offers
}

/// Bytes that are no message under the policy: damaged, stray or noise.
fn ill_formed(random: &mut Random, policy: &Policy, messages: &[Vec<u8>]) -> Offer {
    loop {
        let bytes = match random.below(4) {
            0 => noise(random, 20),
            1 => generate::stray_message(random, policy),
            _ if messages.is_empty() => Vec::new(),
            _ => {
                let message = random.below(messages.len());
                generate::damaged(random, &messages[message])
            }
        };
        if let Err(refusal) = message::read(policy, &bytes) {
            return Offer { bytes, refusal: Some(refusal) };
        }
    }
}

/// Bytes to offer: messages of one trace, damaged and stray ones, some of another trace, and noise.
pub fn offers(random: &mut Random, policy: &Policy, most: usize) -> Vec<Vec<u8>> {
    let most = random.between(0, most);
    let one = trace(random, policy, most / 2);
    let mut offers =
        if random.once_in(3) { sent(random, policy, &one, most) } else { generate::offers(random, policy, &one, most) };
    if random.once_in(2) {
        let other = trace(random, policy, most / 2);
        offers.extend(generate::offers(random, policy, &other, most / 3));
    }
    offers.extend((0..most / 6).map(|_| noise(random, 20)));
    random.shuffle(&mut offers);
    offers
}

/// A rule and a minute to look at: on the sheet, just off it, or far off, where rule times minutes
/// wraps around.
pub fn cell(random: &mut Random, policy: &Policy) -> (usize, usize) {
    let (rules, minutes) = (policy.rules().len(), policy.minutes);
    if random.once_in(2) {
        return (random.below(rules), random.below(minutes));
    }
    (index(random, rules, minutes), index(random, minutes, minutes))
}

/// A number below, at or far past `end`.
fn index(random: &mut Random, end: usize, minutes: usize) -> usize {
    let within = random.below(end);
    let any = random.word() as usize;
    let last = usize::MAX / minutes;
    let wraps = last.wrapping_add(1);
    random.pick(&[within, within, end, end + 1, usize::MAX, last, wraps, wraps + within, 1 << 32, any])
}
