//! A trace (shift of document 01).

use crate::knowledge::Buffers;
use crate::message::Message;
use crate::policy::Policy;

/// "A shift gives every station a set of minutes and every mark a truth value at every minute; it may run any finite
/// number of minutes past M."
#[derive(Clone, Debug, PartialEq, Eq)]
pub struct Trace {
    /// For each component, and each minute up to the trace's end: whether it made an observation.
    pub observed: Vec<Vec<bool>>,
    /// For each minute up to the trace's end, the propositions' values, proposition k at bit k. After the end no
    /// minute is a time point, so that no value there bears on a verdict.
    pub values: Vec<u32>,
}

impl Trace {
    /// The minutes before its end; at least the policy's.
    pub fn length(&self) -> usize {
        self.values.len()
    }

    /// Whether the minute is busy: "at least one station made an observation in it"; none did before minute 0 or
    /// after the end.
    pub fn time_point(&self, minute: i64) -> bool {
        let within = 0 <= minute && minute < self.length() as i64;
        within && self.observed.iter().any(|minutes| minutes[minute as usize])
    }

    pub fn value(&self, minute: usize, proposition: usize) -> bool {
        self.values[minute] >> proposition & 1 == 1
    }

    /// The sequence number (count) at a place: the component's observations before minute `place`, which are those up
    /// to and including minute `place` − 1.
    pub fn number(&self, component: usize, place: usize) -> usize {
        (0..place).filter(|minute| self.observed[component][*minute]).count()
    }

    /// Could have sent: "it agrees with everything that each of them fixes".
    pub fn admits(&self, message: &Message) -> bool {
        let fixed = message.fixes();
        fixed.numbers.iter().all(|(place, number)| self.number(message.component, *place) == *number)
            && fixed.facts.iter().all(|(minute, proposition, value)| self.value(*minute, *proposition) == *value)
    }

    /// Fits: "it agrees with every known count and fact". A fact of a proposition beyond the policy's is not the
    /// trace's to agree with.
    pub fn agrees(&self, policy: &Policy, buffers: &Buffers) -> bool {
        let numbers = (0..policy.components).all(|component| {
            (0..=policy.minutes).all(|place| {
                let known = buffers.number(policy, component, place);
                known.is_none_or(|number| number == self.number(component, place))
            })
        });
        let facts = (0..policy.minutes).all(|minute| {
            (0..policy.propositions).all(|proposition| {
                let known = buffers.fact(minute, proposition);
                known.is_none_or(|value| value == self.value(minute, proposition))
            })
        });
        numbers && facts
    }
}
