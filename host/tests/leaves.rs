//! The float leaves against Rust's own, bit for bit, over ten million values each. Every NaN counts
//! as the same; all else has to agree in every bit, the sign of a zero among them. And over the values of the root, how
//! near its guesses are.
//!
//! The values are drawn in turns, and each turn has values of every class by construction. What a
//! value is, is told from its pattern, so a class that a turn should have met and did not is found.
//! `CATHAR_SEED` sets the seed and `CATHAR_VALUES` the least number of values.
mod leaves {
    mod cut;
    pub mod guess;
    pub mod narrow;
    pub mod root;
    pub mod whole;
}

use cathar_host::cathar;
use cathar_host::draw::{self, Draw};
use cathar_host::float::{word32, word64, F32, F64};
use cathar_host::original::{self, Kind};
use cathar_host::root::{by_guess, by_short_guess, whole_digits};
use cathar_host::tally::Tally;
use cathar_host::wrong;
use leaves::{guess, narrow, root, whole};

/// One turn of drawing: hands each pattern on.
type Turn = fn(&mut Draw, &mut dyn FnMut(u64));

/// What our side makes of a pattern. Every NaN has one word.
type Ours = fn(u64) -> u64;

/// Holds our side to Rust's own operation, which is asked for all values of a turn at once, here and in a second
/// process, if there is one.
fn compare(mut tally: Tally, turn: Turn, ours: Ours, theirs: Kind) {
    let seed = draw::seed();
    let mut draw = Draw::new(seed);
    while tally.values() < draw::values() {
        let mut values = Vec::new();
        turn(&mut draw, &mut |bits| values.push(bits));
        let results = original::leaf(theirs, values.clone());
        for (bits, result) in values.into_iter().zip(results) {
            tally.take(bits, ours(bits), original::one_nan(theirs, result));
        }
    }
    tally.close(seed);
}

#[test]
fn square_root() {
    let tally = Tally::new("cathar_sqrt against f64::sqrt", F64, root::CLASSES);
    compare(tally, root::turn, |bits| word64(wrong::sqrt(f64::from_bits(bits))), Kind::Root);
}

/// The guesses of the root, for ten million numbers above zero of those that the comparison of the root takes: each is
/// right or one step off, and none goes to the digits by hand. With one step of the guess less many do, and every root
/// is right all the same.
#[test]
fn guesses() {
    let mut draw = Draw::new(draw::seed());
    let (mut full, mut short) = (guess::Tally::default(), guess::Tally::default());
    while full.values() < draw::values() {
        root::turn(&mut draw, &mut |bits| {
            if let Some(digits) = whole_digits(bits) {
                let root = wrong::sqrt(f64::from_bits(bits)).to_bits();
                full.take(by_guess::guess(digits), F64.digits(root));
                short.take(by_short_guess::guess(digits), F64.digits(root));
                assert_eq!(by_guess::square_root(f64::from_bits(bits)).to_bits(), root, "of {bits:#x}");
                assert_eq!(by_short_guess::square_root(f64::from_bits(bits)).to_bits(), root, "of {bits:#x}");
            }
        });
    }
    full.print("the guess of the root", by_guess::by_digits());
    short.print("the guess of the root, one step less", by_short_guess::by_digits());
    assert_eq!((full.far(), by_guess::by_digits()), (0, 0), "guesses far off, and roots by hand");
    assert!(short.far() > 0 && by_short_guess::by_digits() >= short.far(), "one step less, and none by hand");
}

#[test]
fn narrowing() {
    let tally = Tally::new("cathar_narrow against `as f32`", F64, narrow::CLASSES);
    compare(tally, narrow::turn, |bits| word32(wrong::narrow(f64::from_bits(bits))), Kind::Narrow);
}

#[test]
fn rounding_to_whole() {
    let tally = Tally::new("cathar_round against f32::round", F32, whole::CLASSES);
    compare(tally, whole::turn, |bits| word32(wrong::round(f32::from_bits(bits as u32))), Kind::Round);
}

/// All 2 ^ 32 of them, with nothing left to chance. It takes a quarter of an hour under an emulator, so it
/// runs when asked for: `host/test -- --ignored`.
#[test]
#[ignore]
fn rounding_every_float_to_whole() {
    let mut differences = 0;
    for bits in 0..=u32::MAX {
        let x = f32::from_bits(bits);
        differences += u64::from(word32(cathar::round(x)) != word32(x.round()));
    }
    println!("cathar_round against f32::round, all {} patterns, {differences} differences", 1u64 << 32);
    assert_eq!(differences, 0);
}
