//! A state that owns its memory.

use crate::calls::{lookup, open, receive, receive_packet, Packet, Verdict};
use crate::fields::POLICY_LENGTH;
use crate::refusal::Refusal;
use crate::sizes::Sizes;
use crate::state::State;
use alloc::boxed::Box;
use alloc::vec;

/// A shift under its policy: what is known of it, and its verdicts, in memory of its own (at most 114 KiB).
///
/// Its state is lent with its own policy and with no other, so that none of its calls is refused for
/// [`OtherPolicy`](crate::Reason::OtherPolicy).
///
/// Where several threads bring messages, one lock is enough: the order of messages that agree doesn't matter.
///
/// ```
/// use std::sync::Mutex;
/// use std::thread;
/// use zankezurt::{Shift, Verdict};
///
/// // mark 0 at some time in the last 2 minutes
/// let policy = [0x01, 0x01, 0x04, 0x00, 0x03, 0x00, 0x01, 0x01, 0x35, 0x04, 0x01, 0x02, 0x00];
/// let radios: [&[u8]; 2] =
///     [&[0x0C, 0x01, 0x00, 0x01, 0x00, 0x00, 0x00, 0x00], &[0x0E, 0x02, 0x00, 0x02, 0x00, 0x01, 0x00, 0x00, 0x00, 0x01]];
///
/// let shift = Mutex::new(Shift::open(&policy)?);
/// thread::scope(|scope| {
///     for message in radios {
///         let shift = &shift;
///         scope.spawn(move || shift.lock().unwrap().receive(message));
///     }
/// });
/// let shift = shift.into_inner().unwrap();
/// assert_eq!(shift.lookup(0, 0)?, Verdict::Violated);
/// assert_eq!(shift.lookup(0, 2)?, Verdict::Satisfied);
/// # Ok::<(), zankezurt::Refusal>(())
/// ```
#[derive(Clone, Debug, PartialEq, Eq)]
pub struct Shift {
    policy: Box<[u8]>,
    sizes: Sizes,
    numbers: Box<[u16]>,
    facts: Box<[u32]>,
    valuation: Box<[u8]>,
    verdicts: Box<[u8]>,
    origin: Box<[u8]>,
    extent: u16,
}

impl Shift {
    /// Opens a shift under an encoded policy: nothing is known, and every verdict is blank.
    pub fn open(policy: &[u8]) -> Result<Shift, Refusal> {
        let sizes = Sizes::of(policy)?;
        let mut shift = Shift {
            policy: policy.into(),
            sizes,
            numbers: zeros(sizes.numbers_length()),
            facts: zeros(sizes.facts_length()),
            valuation: zeros(sizes.valuation_length()),
            verdicts: zeros(sizes.verdicts_length()),
            origin: zeros(POLICY_LENGTH),
            extent: 0,
        };
        let (policy, mut state) = shift.lent();
        open(policy, &mut state)?;
        Ok(shift)
    }

    /// Takes one message, of any bytes; gives how many verdicts stand.
    pub fn receive(&mut self, message: &[u8]) -> Result<usize, Refusal> {
        let (policy, mut state) = self.lent();
        receive(policy, message, &mut state)
    }

    /// Takes the messages of a packet, which stand end to end, until the packet ends or one is refused; leaves the shift as taking them
    /// one by one would.
    pub fn receive_packet(&mut self, packet: &[u8]) -> Packet {
        let (policy, mut state) = self.lent();
        receive_packet(policy, packet, &mut state)
    }

    /// The verdict of a rule at a minute.
    pub fn lookup(&self, rule: usize, minute: usize) -> Result<Verdict, Refusal> {
        lookup(&self.policy, &self.verdicts, rule, minute)
    }

    /// The verdicts that stand, as a release sheet prints them: minute, rule and verdict, minute by minute.
    ///
    /// ```
    /// # let policy = [0x01, 0x01, 0x04, 0x00, 0x03, 0x00, 0x01, 0x01, 0x35, 0x04, 0x01, 0x02, 0x00];
    /// # let mut shift = zankezurt::Shift::open(&policy)?;
    /// # shift.receive(&[0x0C, 0x01, 0x00, 0x01, 0x00, 0x00, 0x00, 0x00])?;
    /// for (minute, rule, verdict) in shift.verdicts() {
    ///     println!("{minute} {rule} {verdict}");
    /// }
    /// # Ok::<(), zankezurt::Refusal>(())
    /// ```
    pub fn verdicts(&self) -> impl Iterator<Item = (usize, usize, Verdict)> + '_ {
        let Sizes { minutes, rules, .. } = self.sizes;
        let cells = (0..minutes).flat_map(move |minute| (0..rules).map(move |rule| (minute, rule)));
        cells.filter_map(move |(minute, rule)| {
            let code = *self.verdicts.get(rule * minutes + minute)?;
            let verdict = Verdict::of_code(code.into());
            (verdict != Verdict::Unknown).then_some((minute, rule, verdict))
        })
    }

    /// The encoded policy.
    pub fn policy(&self) -> &[u8] {
        &self.policy
    }

    /// The sizes of the policy.
    pub fn sizes(&self) -> Sizes {
        self.sizes
    }

    /// The policy and the state, as the calls want them.
    fn lent(&mut self) -> (&[u8], State<'_>) {
        let Shift { policy, sizes: _, numbers, facts, valuation, verdicts, origin, extent } = self;
        (policy, State { numbers, facts, valuation, verdicts, origin, extent })
    }
}

/// So many cells, before they are opened.
fn zeros<T: Clone + Default>(length: usize) -> Box<[T]> {
    vec![T::default(); length].into_boxed_slice()
}
