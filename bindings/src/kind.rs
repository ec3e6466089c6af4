//! The kinds of a [`Line`](crate::Line), by name. The last six are abbreviations: each has the same value, at every minute, as what it
//! stands for. `docs/FORMAT.md` says more.

/// Always true.
pub const TRUE: u16 = 0;
/// The proposition (mark) `first`.
pub const PROPOSITION: u16 = 1;
/// Not `first`.
pub const NOT: u16 = 2;
/// `first` or `second`.
pub const OR: u16 = 3;
/// `first` since `second`, from `lower` to `upper` minutes back.
pub const SINCE: u16 = 4;
/// `first` until `second`, from `lower` to `upper` minutes on.
pub const UNTIL: u16 = 5;
/// `first` and `second`: not (not `first` or not `second`).
pub const AND: u16 = 6;
/// If `first` then `second`: not `first`, or `second`.
pub const IMPLIES: u16 = 7;
/// `first` at some time point from `lower` to `upper` minutes back: true since `first`.
pub const ONCE: u16 = 8;
/// `first` at every time point from `lower` to `upper` minutes back: not once not `first`.
pub const HISTORICALLY: u16 = 9;
/// `first` at some time point from `lower` to `upper` minutes on: true until `first`.
pub const EVENTUALLY: u16 = 10;
/// `first` at every time point from `lower` to `upper` minutes on: not eventually not `first`.
pub const ALWAYS: u16 = 11;
