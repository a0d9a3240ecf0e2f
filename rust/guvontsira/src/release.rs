//! The release that this crate is for, and the one that it is linked with.

use std::fmt;

use crate::library;

/// The release of the library that this crate is for: 10,000 times its major
/// number, 100 times its minor one, and its patch.
pub const VERSION: u32 = 10_000 * number(env!("CARGO_PKG_VERSION_MAJOR"))
    + 100 * number(env!("CARGO_PKG_VERSION_MINOR"))
    + number(env!("CARGO_PKG_VERSION_PATCH"));

/// The same as text, `4.3.0`.
pub const RELEASE: &str = env!("CARGO_PKG_VERSION");

const fn number(digits: &str) -> u32 {
    match u32::from_str_radix(digits, 10) {
        Ok(number) => number,
        Err(_) => panic!("cargo gives numbers"),
    }
}

/// Another release may read other bytes and keep its words elsewhere; to go on
/// would be to guess.
pub(crate) fn check_linked() {
    check(library::version());
}

fn check(found: u32) {
    assert!(
        found == VERSION,
        "the linked library is release {}, and this crate is for {}",
        Release(found),
        Release(VERSION)
    );
}

struct Release(u32);

impl fmt::Display for Release {
    fn fmt(&self, f: &mut fmt::Formatter<'_>) -> fmt::Result {
        let Release(number) = self;
        write!(
            f,
            "{}.{}.{}",
            number / 10_000,
            number / 100 % 100,
            number % 100
        )
    }
}

#[cfg(test)]
mod tests {
    use super::*;

    #[test]
    fn the_linked_one() {
        check_linked();
        assert_eq!(Release(VERSION).to_string(), RELEASE);
    }

    #[test]
    #[should_panic(expected = "the linked library is release 12.3.45, and this crate is for")]
    fn another() {
        check(12_03_45);
    }
}
