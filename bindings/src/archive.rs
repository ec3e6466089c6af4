//! The archive's functions, as `include/zankezurt.h` declares them: a slice is a pointer, never null, and a length.
#![allow(unsafe_code)]

use crate::fields::Line;
use crate::state::State;

/// How many lines there must be memory for where a policy is written.
pub const LINES: usize = 64;

/// Declares functions that are lent a state: what stands before it, and after it. In the archive the state is all its cells, which stand
/// here alone; each function gets one of its name that is lent them together.
macro_rules! lent_a_state {
    ($(fn $name:ident($($before:ident: $read:ty),*; $($after:ident: $written:ty),*);)*) => {
        mod cells {
            extern "C" {
                $(pub fn $name(
                    $($before: $read,)*
                    numbers: *mut u16,
                    numbers_length: usize,
                    facts: *mut u32,
                    facts_length: usize,
                    valuation: *mut u8,
                    valuation_length: usize,
                    verdicts: *mut u8,
                    verdicts_length: usize,
                    origin: *mut u8,
                    origin_length: usize,
                    extent: *mut u16,
                    $($after: $written,)*
                ) -> u8;)*
            }
        }

        $(pub unsafe fn $name($($before: $read,)* state: &mut State<'_>, $($after: $written),*) -> u8 {
            let State { numbers, facts, valuation, verdicts, origin, extent } = state;
            cells::$name(
                $($before,)*
                numbers.as_mut_ptr(),
                numbers.len(),
                facts.as_mut_ptr(),
                facts.len(),
                valuation.as_mut_ptr(),
                valuation.len(),
                verdicts.as_mut_ptr(),
                verdicts.len(),
                origin.as_mut_ptr(),
                origin.len(),
                *extent,
                $($after),*
            )
        })*
    };
}

lent_a_state! {
    fn zankezurt_open(policy: *const u8, policy_length: usize; detail: *mut usize);

    fn zankezurt_receive(
        policy: *const u8,
        policy_length: usize,
        message: *const u8,
        message_length: usize;
        detail: *mut usize
    );

    fn zankezurt_receive_packet(
        policy: *const u8,
        policy_length: usize,
        packet: *const u8,
        packet_length: usize;
        taken: *mut usize,
        place: *mut usize
    );
}

extern "C" {
    pub fn zankezurt_lookup(
        policy: *const u8,
        policy_length: usize,
        verdicts: *const u8,
        verdicts_length: usize,
        rule: usize,
        minute: usize,
        detail: *mut usize,
    ) -> u8;

    pub fn zankezurt_encode_policy(
        propositions: usize,
        components: usize,
        minutes: usize,
        lines: usize,
        fields: *const [Line; LINES],
        out: *mut u8,
        out_length: usize,
        detail: *mut usize,
    ) -> u8;

    pub fn zankezurt_encode_message(
        policy: *const u8,
        policy_length: usize,
        component: usize,
        alive: u8,
        minute: usize,
        number: usize,
        named: u32,
        values: u32,
        out: *mut u8,
        out_length: usize,
        detail: *mut usize,
    ) -> u8;

    pub fn zankezurt_compile_rule(
        text: *const u8,
        text_length: usize,
        propositions: usize,
        components: usize,
        minutes: usize,
        out: *mut u8,
        out_length: usize,
        detail: *mut usize,
    ) -> u8;

    pub fn zankezurt_rule_reaches(
        policy: *const u8,
        policy_length: usize,
        out: *mut u16,
        out_length: usize,
        detail: *mut usize,
    ) -> u8;

    pub fn zankezurt_version() -> u32;
}
