//! One version number, of the header, the bindings and the archive.
#![allow(unsafe_code)]

use crate::archive;

/// The version of these bindings: 10,000 × major + 100 × minor + patch.
pub const VERSION: u32 = 10_000 * number(env!("CARGO_PKG_VERSION_MAJOR"))
    + 100 * number(env!("CARGO_PKG_VERSION_MINOR"))
    + number(env!("CARGO_PKG_VERSION_PATCH"));

/// The version of the archive that is linked, counted as [`VERSION`] is.
///
/// ```
/// assert_eq!(zankezurt::version(), zankezurt::VERSION);
/// ```
pub fn version() -> u32 {
    // SAFETY: it takes nothing and gives a number.
    unsafe { archive::zankezurt_version() }
}

/// The number that decimal digits write.
const fn number(digits: &str) -> u32 {
    let digits = digits.as_bytes();
    let mut number = 0;
    let mut i = 0;
    while i < digits.len() {
        number = 10 * number + (digits[i] - b'0') as u32;
        i += 1;
    }
    number
}
