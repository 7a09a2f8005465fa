//! The version of the package and that of the archive.

use crate::numbers;

/// The version of this package: first * 10000 + second * 100 + third.
pub const VERSION: u32 = 10_000 * number(env!("CARGO_PKG_VERSION_MAJOR"))
    + 100 * number(env!("CARGO_PKG_VERSION_MINOR"))
    + number(env!("CARGO_PKG_VERSION_PATCH"));

/// The version of the archive that is linked, as a number like [`VERSION`].
///
/// The package goes with an archive of the same first two numbers. It never
/// refuses.
///
/// ```
/// assert_eq!(ohakelm::version() / 100, ohakelm::VERSION / 100);
/// ```
pub fn version() -> u32 {
    numbers::version()
}

/// The number of decimal digits. The standard one is not yet for constants.
const fn number(digits: &str) -> u32 {
    let digits = digits.as_bytes();
    let (mut number, mut at) = (0, 0);
    while at < digits.len() {
        number = number * 10 + (digits[at] - b'0') as u32;
        at += 1;
    }
    number
}
