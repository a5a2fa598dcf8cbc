//! Stand-ins for the root, for narrowing and for rounding to whole: Rust's own operations, each altered in one way.
use super::How::{Narrow, Root, Round};
use super::{Finds, Standin, Table};
use crate::float::F64;
use crate::root::{by_guess, excess, whole_digits};

pub(super) const TABLES: &[Table] = &[
    Table { file: "leaves", test: "square_root", finds: Finds::Always, standins: ROOTS },
    Table { file: "leaves", test: "narrowing", finds: Finds::Always, standins: NARROWINGS },
    Table { file: "leaves", test: "rounding_to_whole", finds: Finds::Always, standins: ROUNDINGS },
];

const ROOTS: &[Standin] = &[
    Standin { name: "root_cut", says: "a root that is not exact is cut and not rounded", how: Root(root_cut) },
    Standin {
        name: "root_low_above_tie",
        says: "a root that lies just above half way between two doubles is rounded to the lower one",
        how: Root(root_low_above_tie),
    },
    Standin {
        name: "root_high_below_tie",
        says: "a root that lies just below half way between two doubles is rounded to the higher one",
        how: Root(root_high_below_tie),
    },
    Standin {
        name: "root_by_steps",
        says: "the root is approached by steps of half the sum of guess and quotient, and not rounded correctly after",
        how: Root(root_by_steps),
    },
    Standin {
        name: "root_guess_unchecked",
        says: "the library's own guess is given, without its check",
        how: Root(|x| stepped(x.sqrt(), guess_off(x))),
    },
    Standin {
        name: "root_guess_left_high",
        says: "the library's own guess is given where it is one too high",
        how: Root(|x| stepped(x.sqrt(), guess_off(x).max(0))),
    },
    Standin {
        name: "root_guess_left_low",
        says: "the library's own guess is given where it is one too low",
        how: Root(|x| stepped(x.sqrt(), guess_off(x).min(0))),
    },
    Standin {
        name: "root_below_power_of_4",
        says: "the root of the last double below a power of 4 is rounded to the power of 2",
        how: Root(root_below_power_of_4),
    },
    Standin {
        name: "root_of_subnormal_short",
        says: "the root of a subnormal double has half of its digits",
        how: Root(root_of_subnormal_short),
    },
    Standin {
        name: "root_of_subnormal_zero",
        says: "the root of a subnormal double is 0",
        how: Root(root_of_subnormal_zero),
    },
    Standin { name: "root_of_least_wrong", says: "the root of 2^-1074 is 2^-538", how: Root(root_of_least_wrong) },
    Standin { name: "root_of_minus_zero", says: "the root of -0 is +0", how: Root(root_of_minus_zero) },
    Standin {
        name: "root_of_magnitude",
        says: "the root of a number below zero is that of its magnitude",
        how: Root(root_of_magnitude),
    },
    Standin { name: "root_of_infinity", says: "the root of plus infinity is a NaN", how: Root(root_of_infinity) },
];

const NARROWINGS: &[Standin] = &[
    Standin { name: "narrow_ties_away", says: "ties go away from zero", how: Narrow(narrow_ties_away) },
    Standin { name: "narrow_ties_to_zero", says: "ties go toward zero", how: Narrow(narrow_ties_to_zero) },
    Standin { name: "narrow_cut", says: "what an f32 does not hold is cut off", how: Narrow(narrow_cut) },
    Standin {
        name: "narrow_subnormal_cut",
        says: "where the result is subnormal, what an f32 does not hold is cut off",
        how: Narrow(narrow_subnormal_cut),
    },
    Standin { name: "narrow_subnormal_zero", says: "a subnormal result is 0", how: Narrow(narrow_subnormal_zero) },
    Standin {
        name: "narrow_half_of_least",
        says: "2^-150, half of the least f32, goes to the least f32",
        how: Narrow(narrow_half_of_least),
    },
    Standin {
        name: "narrow_carry_lost",
        says: "where rounding carries into the next binade, the result stays in its own",
        how: Narrow(narrow_carry_lost),
    },
    Standin {
        name: "narrow_too_large",
        says: "what is too large becomes the largest f32 and not infinity",
        how: Narrow(narrow_too_large),
    },
    Standin {
        name: "narrow_to_infinity_late",
        says: "only from 2^128 on the result is infinite, and not from half a step before it",
        how: Narrow(narrow_to_infinity_late),
    },
    Standin {
        name: "narrow_twice",
        says: "the number is first rounded to 45 digits and then to an f32",
        how: Narrow(narrow_twice),
    },
    Standin { name: "narrow_zero_sign", says: "a zero loses its sign", how: Narrow(narrow_zero_sign) },
    Standin {
        name: "narrow_nan_to_infinity",
        says: "a NaN of whose digits an f32 holds only zeros becomes infinity",
        how: Narrow(narrow_nan_to_infinity),
    },
];

const ROUNDINGS: &[Standin] = &[
    Standin { name: "round_halves_to_even", says: "halves go to the even number", how: Round(round_halves_to_even) },
    Standin { name: "round_halves_to_zero", says: "halves go toward zero", how: Round(round_halves_to_zero) },
    Standin { name: "round_halves_up", says: "halves below zero go up", how: Round(round_halves_up) },
    Standin {
        name: "round_plus_half_cut",
        says: "one half is added to the magnitude in f32, and the sum is cut: wrong one step below one half",
        how: Round(round_plus_half_cut),
    },
    Standin { name: "round_last_tie", says: "2^23 - 1/2 goes down", how: Round(round_last_tie) },
    Standin { name: "round_one_half", says: "one half itself goes to 0", how: Round(round_one_half) },
    Standin { name: "round_zero_sign", says: "a zero that comes from -0.25 is +0", how: Round(round_zero_sign) },
    Standin {
        name: "round_large_plus_half",
        says: "from 2^23 on one half is added before the number is cut",
        how: Round(round_large_plus_half),
    },
    Standin {
        name: "round_within_32_bits",
        says: "the number goes through a whole number of 32 bits",
        how: Round(round_within_32_bits),
    },
    Standin { name: "round_infinity", says: "an infinity becomes a NaN", how: Round(round_infinity) },
];

/// How near to half way between two doubles a root is for the stand-ins that round it the wrong way, in the measure
/// of `excess`.
const NEAR: i128 = 64;

/// The double one step nearer to zero, or so many steps farther, for one that is no zero.
fn stepped(x: f64, steps: i64) -> f64 {
    f64::from_bits(x.to_bits().wrapping_add(steps as u64))
}

/// How many steps the library's guess at the root is above it.
fn guess_off(x: f64) -> i64 {
    let above = |digits| by_guess::guess(digits) as i64 - F64.digits(x.sqrt().to_bits()) as i64;
    whole_digits(x.to_bits()).map_or(0, above)
}

fn root_cut(x: f64) -> f64 {
    let rounded_up = matches!(excess(x.to_bits()), Some((_, over)) if over < 0);
    stepped(x.sqrt(), -i64::from(rounded_up))
}

fn root_low_above_tie(x: f64) -> f64 {
    let above_tie = matches!(excess(x.to_bits()), Some((q, over)) if over < 0 && q + over <= NEAR);
    stepped(x.sqrt(), -i64::from(above_tie))
}

fn root_high_below_tie(x: f64) -> f64 {
    let below_tie = matches!(excess(x.to_bits()), Some((q, over)) if over > 0 && q - over <= NEAR);
    stepped(x.sqrt(), i64::from(below_tie))
}

fn root_by_steps(x: f64) -> f64 {
    let near = x as f32;
    if !(near.is_normal() && x > 0.0) {
        return x.sqrt();
    }
    let mut guess = f64::from(near.sqrt());
    for _ in 0..4 {
        guess = 0.5 * (guess + x / guess);
    }
    guess
}

fn root_below_power_of_4(x: f64) -> f64 {
    let root = x.sqrt();
    let is_below = x.is_normal() && F64.field(x.to_bits()) % 2 == 0 && F64.tail(x.to_bits()) == F64.last_tail();
    stepped(root, i64::from(is_below && x > 0.0))
}

fn root_of_subnormal_short(x: f64) -> f64 {
    let root = x.sqrt();
    if x.is_normal() {
        root
    } else {
        f64::from_bits(root.to_bits() >> 26 << 26)
    }
}

fn root_of_subnormal_zero(x: f64) -> f64 {
    if x > 0.0 && x < f64::MIN_POSITIVE {
        0.0
    } else {
        x.sqrt()
    }
}

fn root_of_least_wrong(x: f64) -> f64 {
    let root = x.sqrt();
    if x.to_bits() == 1 {
        root / 2.0
    } else {
        root
    }
}

fn root_of_minus_zero(x: f64) -> f64 {
    x.sqrt() + 0.0
}

fn root_of_magnitude(x: f64) -> f64 {
    if x < 0.0 {
        (-x).sqrt()
    } else {
        x.sqrt()
    }
}

fn root_of_infinity(x: f64) -> f64 {
    if x == f64::INFINITY {
        f64::NAN
    } else {
        x.sqrt()
    }
}

/// The f32 one step nearer to zero, or so many steps farther, for one that is no zero and for a zero that goes
/// farther.
fn stepped_f32(x: f32, steps: i32) -> f32 {
    f32::from_bits(x.to_bits().wrapping_add(steps as u32))
}

/// The magnitude of the f32 nearest to x less that of x, for an x whose f32 is finite: above 0 where it was rounded
/// away from zero. The difference of two doubles as near as these is exact.
fn over(x: f64) -> f64 {
    f64::from(x as f32).abs() - x.abs()
}

/// Whether x is half way between two f32.
fn is_tie(x: f64) -> bool {
    let (near, over) = (x as f32, over(x));
    let other = stepped_f32(near, if over > 0.0 { -1 } else { 1 });
    near.is_finite() && over != 0.0 && other.is_finite() && f64::from(other).abs() - x.abs() == -over
}

fn narrow_ties_away(x: f64) -> f32 {
    let was_toward_zero = is_tie(x) && over(x) < 0.0;
    stepped_f32(x as f32, i32::from(was_toward_zero))
}

fn narrow_ties_to_zero(x: f64) -> f32 {
    let was_away = is_tie(x) && over(x) > 0.0;
    stepped_f32(x as f32, -i32::from(was_away))
}

fn narrow_cut(x: f64) -> f32 {
    let was_away = x.is_finite() && over(x) > 0.0;
    stepped_f32(x as f32, -i32::from(was_away))
}

fn narrow_subnormal_cut(x: f64) -> f32 {
    if x.abs() < f64::from(f32::MIN_POSITIVE) {
        narrow_cut(x)
    } else {
        x as f32
    }
}

fn narrow_subnormal_zero(x: f64) -> f32 {
    let near = x as f32;
    if near.is_subnormal() {
        near * 0.0
    } else {
        near
    }
}

fn narrow_half_of_least(x: f64) -> f32 {
    let is_half = 2.0 * x.abs() == f64::from(f32::from_bits(1));
    stepped_f32(x as f32, i32::from(is_half))
}

fn narrow_carry_lost(x: f64) -> f32 {
    let near = x as f32;
    if near.is_normal() && near.to_bits() << 9 == 0 && over(x) > 0.0 {
        near / 2.0
    } else {
        near
    }
}

fn narrow_too_large(x: f64) -> f32 {
    let near = x as f32;
    if x.is_finite() && near.is_infinite() {
        f32::MAX.copysign(near)
    } else {
        near
    }
}

fn narrow_to_infinity_late(x: f64) -> f32 {
    if x.abs() < 2f64.powi(128) {
        narrow_too_large(x)
    } else {
        x as f32
    }
}

fn narrow_twice(x: f64) -> f32 {
    // What is added to x here and taken off again is so large that 45 digits of x are left.
    let large = x * 257.0;
    let rounded = if large.is_finite() { large - (large - x) } else { x };
    rounded as f32
}

fn narrow_zero_sign(x: f64) -> f32 {
    x as f32 + 0.0
}

fn narrow_nan_to_infinity(x: f64) -> f32 {
    if x.is_nan() && F64.tail(x.to_bits()) >> 29 == 0 {
        f32::INFINITY
    } else {
        x as f32
    }
}

/// Whether x is half way between two whole numbers.
fn is_half(x: f32) -> bool {
    x.fract().abs() == 0.5
}

fn round_halves_to_even(x: f32) -> f32 {
    if is_half(x) {
        2.0 * (x / 2.0).round()
    } else {
        x.round()
    }
}

fn round_halves_to_zero(x: f32) -> f32 {
    if is_half(x) {
        x.trunc()
    } else {
        x.round()
    }
}

fn round_halves_up(x: f32) -> f32 {
    if is_half(x) {
        x.ceil()
    } else {
        x.round()
    }
}

fn round_plus_half_cut(x: f32) -> f32 {
    if x.abs() < 8_388_608.0 {
        (x.abs() + 0.5).trunc().copysign(x)
    } else {
        x
    }
}

fn round_last_tie(x: f32) -> f32 {
    if x.abs() == 8_388_607.5 {
        x.trunc()
    } else {
        x.round()
    }
}

fn round_one_half(x: f32) -> f32 {
    if x.abs() == 0.5 {
        x.trunc()
    } else {
        x.round()
    }
}

fn round_zero_sign(x: f32) -> f32 {
    if x == 0.0 {
        x
    } else {
        x.round() + 0.0
    }
}

fn round_large_plus_half(x: f32) -> f32 {
    if x.abs() >= 8_388_608.0 {
        (x.abs() + 0.5).trunc().copysign(x)
    } else {
        x.round()
    }
}

fn round_within_32_bits(x: f32) -> f32 {
    if x.is_finite() {
        (x.round() as i32 as f32).copysign(x)
    } else {
        x
    }
}

fn round_infinity(x: f32) -> f32 {
    x.round() + x * 0.0
}
