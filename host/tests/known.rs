//! The float leaves on a fixed list, the patterns on both sides written out, so that nothing here rests
//! on the machine's own square root, narrowing or rounding.
use cathar_host::cathar;

/// Each double, and its square root.
const ROOTS: &[(u64, u64)] = &[
    // 2.25: 1.5
    (0x4002_0000_0000_0000, 0x3ff8_0000_0000_0000),
    // 2: its root to 53 digits; 4: 2
    (0x4000_0000_0000_0000, 0x3ff6_a09e_667f_3bcd),
    (0x4010_0000_0000_0000, 0x4000_0000_0000_0000),
    // 2^-1074, the least double: 2^-537
    (0x0000_0000_0000_0001, 0x1e60_0000_0000_0000),
    // 2^-1022, the least normal double: 2^-511
    (0x0010_0000_0000_0000, 0x2000_0000_0000_0000),
    // 1 - 2^-53: itself
    (0x3fef_ffff_ffff_ffff, 0x3fef_ffff_ffff_ffff),
    // 1 + 2^-52: 1
    (0x3ff0_0000_0000_0001, 0x3ff0_0000_0000_0000),
    // 4 - 2^-51: 2 - 2^-52
    (0x400f_ffff_ffff_ffff, 0x3fff_ffff_ffff_ffff),
    // the largest double, 2^1024 - 2^971: 2^512 - 2^459
    (0x7fef_ffff_ffff_ffff, 0x5fef_ffff_ffff_ffff),
    // both zeros and plus infinity: themselves
    (0x0000_0000_0000_0000, 0x0000_0000_0000_0000),
    (0x8000_0000_0000_0000, 0x8000_0000_0000_0000),
    (0x7ff0_0000_0000_0000, 0x7ff0_0000_0000_0000),
];

/// Doubles with no root: -1, the one next below zero, minus infinity, and a quiet and a signalling NaN.
const ROOTLESS: &[u64] = &[
    0xbff0_0000_0000_0000,
    0x8000_0000_0000_0001,
    0xfff0_0000_0000_0000,
    0x7ff8_0000_0000_0000,
    0xfff0_0000_0000_0001,
];

/// Each double, and the f32 nearest to it.
const NARROWED: &[(u64, u32)] = &[
    // 1 + 2^-24, a tie: 1
    (0x3ff0_0000_1000_0000, 0x3f80_0000),
    // one step below and above it: 1, and 1 + 2^-23
    (0x3ff0_0000_0fff_ffff, 0x3f80_0000),
    (0x3ff0_0000_1000_0001, 0x3f80_0001),
    // 1 + 3 * 2^-24, a tie: 1 + 2^-22
    (0x3ff0_0000_3000_0000, 0x3f80_0002),
    // 2 - 2^-24, a tie: 2
    (0x3fff_ffff_f000_0000, 0x4000_0000),
    // 2^128 - 2^104, the largest f32: itself
    (0x47ef_ffff_e000_0000, 0x7f7f_ffff),
    // one step below 2^128 - 2^103: the largest f32; that tie and 2^128: infinity
    (0x47ef_ffff_efff_ffff, 0x7f7f_ffff),
    (0x47ef_ffff_f000_0000, 0x7f80_0000),
    (0xc7f0_0000_0000_0000, 0xff80_0000),
    // the largest double: infinity
    (0x7fef_ffff_ffff_ffff, 0x7f80_0000),
    // 2^-149, the least f32: itself
    (0x36a0_0000_0000_0000, 0x0000_0001),
    // 2^-150, a tie: zero, with its sign; one step above: the least f32
    (0x3690_0000_0000_0000, 0x0000_0000),
    (0xb690_0000_0000_0000, 0x8000_0000),
    (0x3690_0000_0000_0001, 0x0000_0001),
    // 3 * 2^-150, a tie: 2^-148; one step below: the least f32
    (0x36a8_0000_0000_0000, 0x0000_0002),
    (0x36a7_ffff_ffff_ffff, 0x0000_0001),
    // 2^-126 - 2^-150, a tie between the last subnormal f32 and the first normal one: that one
    (0x380f_ffff_e000_0000, 0x0080_0000),
    (0x380f_ffff_dfff_ffff, 0x007f_ffff),
    // the least double: zero
    (0x0000_0000_0000_0001, 0x0000_0000),
    // both zeros and both infinities: themselves
    (0x0000_0000_0000_0000, 0x0000_0000),
    (0x8000_0000_0000_0000, 0x8000_0000),
    (0x7ff0_0000_0000_0000, 0x7f80_0000),
    (0xfff0_0000_0000_0000, 0xff80_0000),
];

/// A quiet NaN, a signalling one all of whose ones an f32 drops, and one that is all ones.
const NAN64: &[u64] = &[0x7ff8_0000_0000_0000, 0x7ff0_0000_0000_0001, 0xffff_ffff_ffff_ffff];

/// Each f32, and the whole number nearest to it.
const ROUNDED: &[(u32, u32)] = &[
    // 2.5: 3; -2.5: -3; -0.25: -0
    (0x4020_0000, 0x4040_0000),
    (0xc020_0000, 0xc040_0000),
    (0xbe80_0000, 0x8000_0000),
    // one step below and above 2.5: 2 and 3
    (0x401f_ffff, 0x4000_0000),
    (0x4020_0001, 0x4040_0000),
    // 0.5: 1; one step below it: 0; -0.5: -1
    (0x3f00_0000, 0x3f80_0000),
    (0x3eff_ffff, 0x0000_0000),
    (0xbf00_0000, 0xbf80_0000),
    // 1.5: 2; one step below it: 1
    (0x3fc0_0000, 0x4000_0000),
    (0x3fbf_ffff, 0x3f80_0000),
    // 2^23 - 1/2: 2^23; 2^23 + 1: itself
    (0x4aff_ffff, 0x4b00_0000),
    (0x4b00_0001, 0x4b00_0001),
    // the least f32 and the largest: 0 and itself
    (0x0000_0001, 0x0000_0000),
    (0x7f7f_ffff, 0x7f7f_ffff),
    // both zeros and both infinities: themselves
    (0x0000_0000, 0x0000_0000),
    (0x8000_0000, 0x8000_0000),
    (0x7f80_0000, 0x7f80_0000),
    (0xff80_0000, 0xff80_0000),
];

/// A quiet NaN, and a signalling one.
const NAN32: &[u32] = &[0x7fc0_0000, 0xff80_0001];

#[test]
fn roots() {
    for (of, root) in ROOTS {
        let got = cathar::sqrt(f64::from_bits(*of)).to_bits();
        assert!(got == *root, "root of {of:#018x}: {got:#018x}, not {root:#018x}");
    }
}

#[test]
fn no_roots() {
    for of in ROOTLESS {
        assert!(cathar::sqrt(f64::from_bits(*of)).is_nan(), "root of {of:#018x}");
    }
}

#[test]
fn narrowed() {
    for (of, narrow) in NARROWED {
        let got = cathar::narrow(f64::from_bits(*of)).to_bits();
        assert!(got == *narrow, "{of:#018x} narrowed: {got:#010x}, not {narrow:#010x}");
    }
}

#[test]
fn nan_narrowed() {
    for of in NAN64 {
        assert!(cathar::narrow(f64::from_bits(*of)).is_nan(), "{of:#018x} narrowed");
    }
}

#[test]
fn rounded() {
    for (of, whole) in ROUNDED {
        let got = cathar::round(f32::from_bits(*of)).to_bits();
        assert!(got == *whole, "{of:#010x} to whole: {got:#010x}, not {whole:#010x}");
    }
}

#[test]
fn nan_rounded() {
    for of in NAN32 {
        assert!(cathar::round(f32::from_bits(*of)).is_nan(), "{of:#010x} to whole");
    }
}
