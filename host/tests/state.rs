//! The library needs the floating-point state that a program starts with, as the header says. In another state it
//! gives other words: these tests show two, and that in the usual state before and after it gives the right ones. And
//! one shows what does not depend on the rounding: the root, whose guess is made of floats and checked without them.
#![cfg(target_arch = "x86_64")]
use cathar_host::cathar;
use cathar_host::draw::{Draw, SEED};
use cathar_host::float::F64;
use std::arch::asm;

/// The words of the register that holds the state: as a program starts; with rounding downward, upward and toward zero;
/// and with subnormals that are taken and given as zeros.
const USUAL: u32 = 0x1f80;
const DOWNWARD: u32 = USUAL | 0x2000;
const UPWARD: u32 = USUAL | 0x4000;
const TOWARD_ZERO: u32 = USUAL | 0x6000;
const FLUSHED: u32 = USUAL | 0x8040;

fn set(state: u32) {
    // The register is the thread's own, and each test sets it back before anything but the library computes.
    unsafe { asm!("ldmxcsr [{}]", in(reg) &state) }
}

/// What a call gives in that state.
fn within<T>(state: u32, call: impl FnOnce() -> T) -> T {
    set(state);
    let given = call();
    set(USUAL);
    given
}

/// The words that `dequantize` leaves of a few samples whose sums are not floats.
fn dequantized() -> Vec<u32> {
    let mut samples: Vec<u32> = [0.1f32, 0.3, -0.7, 0.2, 0.9, -0.4].iter().map(|x| x.to_bits()).collect();
    let (mut marks, mut counts, mut journal, mut used) = ([0; 6], [0], [0; 14], 0);
    let (mut work, mut value) = ([0; 12], 0);
    let answer = cathar::dequantize(
        &mut samples,
        &mut marks,
        &mut counts,
        &mut journal,
        &mut used,
        4,
        0.5,
        &mut work,
        &mut value,
    );
    assert_eq!((answer, value, counts), (0, 4, [4]));
    samples
}

#[test]
fn rounding_upward() {
    let usual = dequantized();
    let upward = within(UPWARD, dequantized);
    println!("dequantize, usual {usual:08x?}, rounding upward {upward:08x?}");
    assert_ne!(upward, usual);
    assert_eq!(dequantized(), usual);
}

/// The root of the least double, 2^-1074, is 2^-537.
#[test]
fn subnormals_flushed() {
    let (least, root) = (f64::from_bits(1), f64::from_bits((1023 - 537) << 52));
    assert_eq!(cathar::sqrt(least).to_bits(), root.to_bits());
    assert_eq!(within(FLUSHED, || cathar::sqrt(least)).to_bits(), least.to_bits());
    assert_eq!(cathar::sqrt(least).to_bits(), root.to_bits());
}

/// The roots of doubles of any exponent.
#[test]
fn roots_in_any_rounding() {
    let mut draw = Draw::new(SEED);
    let mut number = || f64::from_bits(F64.pattern(1 + draw.below(2046), draw.digits(52)));
    let numbers: Vec<f64> = (0..200_000).map(|_| number()).collect();
    let usual: Vec<u64> = numbers.iter().map(|x| x.sqrt().to_bits()).collect();
    for state in [USUAL, DOWNWARD, UPWARD, TOWARD_ZERO] {
        let roots: Vec<u64> = within(state, || numbers.iter().map(|x| cathar::sqrt(*x).to_bits()).collect());
        assert!(roots == usual, "in the state {state:#x}");
    }
}
