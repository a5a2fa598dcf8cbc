//! The library's square root as Rust: the text of `crates/leaves/src/root.rt` itself, which `build.rs` brings here
//! without its contracts. It tells what the library cannot: how near its guess is, and how often the check turns one
//! away.

use crate::float::F64;

/// For a finite positive double, scaled by a power of 4 to a whole number n whose root has 53 digits: n / 2 ^ 52, which
/// is the double's 53 digits, doubled where its scale is odd.
pub fn whole_digits(bits: u64) -> Option<u64> {
    if bits == 0 || f64::INFINITY.to_bits() <= bits {
        return None;
    }
    if F64.is_subnormal(bits) {
        let shift = bits.leading_zeros() - 11;
        return Some(bits << (shift + shift % 2));
    }
    Some(F64.digits(bits) << u32::from(F64.field(bits) % 2 == 0))
}

/// For such a double: q, the whole number nearest to the root, by Rust, and n - q * q.
pub fn excess(bits: u64) -> Option<(i128, i128)> {
    let n = i128::from(whole_digits(bits)?) << 52;
    let q = i128::from(F64.digits(f64::from_bits(bits).sqrt().to_bits()));
    Some((q, n - q * q))
}

/// What the text takes from `crates/leaves/src/words.rt`.
mod words {
    pub const FIELD64: u64 = 1 << 52;
    pub const INFINITY64: u64 = 0x7ff0_0000_0000_0000;

    pub fn f64_of_word(word: u64) -> f64 {
        f64::from_bits(word)
    }

    pub use crate::float::word64 as word_of_f64;
}

/// A module with such a text, whose digits by hand are counted.
macro_rules! counted {
    ($(#[$about:meta])* $name:ident, $file:expr) => {
        $(#[$about])*
        #[allow(clippy::eq_op, clippy::zero_divided_by_zero)]
        pub mod $name {
            use std::cell::Cell;

            include!(concat!(env!("OUT_DIR"), $file));

            thread_local! {
                static BY_DIGITS: Cell<u64> = Cell::new(0);
            }

            /// In the text's own place: its digits by hand, counted.
            fn root_by_digits(digits: u64) -> u64 {
                BY_DIGITS.with(|count| count.set(count.get() + 1));
                every_digit(digits)
            }

            /// For how many numbers this thread has worked out the digits by hand.
            pub fn by_digits() -> u64 {
                BY_DIGITS.with(Cell::get)
            }

            /// The guess at the root of digits * 2 ^ 52.
            pub fn guess(digits: u64) -> u64 {
                guess_less_one(digits) + 1
            }
        }
    };
}

counted! {
    /// The root as the library has it.
    by_guess, "/by_guess.rs"
}

counted! {
    /// With a guess of one step less, which is too far off for most numbers.
    by_short_guess, "/by_short_guess.rs"
}

/// With the digits by hand for every number.
#[allow(dead_code, clippy::eq_op, clippy::zero_divided_by_zero)]
pub mod by_digits {
    include!(concat!(env!("OUT_DIR"), "/by_digits.rs"));
}
