//! Doubles to take the square root of.
use cathar_host::draw::Draw;
use cathar_host::float::F64;
use cathar_host::root::excess;
use cathar_host::tally::Class;

const INFINITY: u64 = 0x7ff0_0000_0000_0000;

/// A root is near a tie where its number, scaled to a whole number n whose root has 53 digits, is so close
/// to s * s + s for the whole root s: the tie is at s + 1/2, whose square is s * s + s + 1/4. Of numbers
/// drawn at random about one in 2 ^ 40 is so near.
const NEAR: i64 = 4096;

pub const CLASSES: &[Class] = &[
    Class { name: "below zero", holds: |f, b| f.is_negative(b) && !f.is_zero(b) && !f.is_nan(b) },
    Class { name: "the least double", holds: |_, b| b == 1 },
    Class { name: "the largest double", holds: |_, b| b == INFINITY - 1 },
    Class { name: "1 - 2^-53", holds: |_, b| b == 0x3fef_ffff_ffff_ffff },
    Class { name: "4 - 2^-51", holds: |_, b| b == 0x400f_ffff_ffff_ffff },
    Class { name: "squares: the root is exact", holds: |_, b| is_square(b) },
    Class { name: "one step below a square", holds: |_, b| is_square(b.wrapping_add(1)) },
    Class { name: "one step above a square", holds: |_, b| is_square(b.wrapping_sub(1)) },
    Class { name: "root just below a tie", holds: |_, b| is_near_tie(b, false) },
    Class { name: "root just above a tie", holds: |_, b| is_near_tie(b, true) },
];

/// One turn: every sign and field with several tails, subnormals of every size, squares and their
/// neighbours, roots near ties, and any pattern.
pub fn turn(draw: &mut Draw, put: &mut dyn FnMut(u64)) {
    for top in 0..F64.tops() {
        for tail in tails(draw) {
            put(F64.pattern(top, tail));
        }
    }
    for size in 1..=52 {
        subnormals(draw, size, put);
    }
    for off in (-NEAR..=NEAR).step_by(2) {
        near_tie(draw, off, false, put);
        near_tie(draw, off, true, put);
    }
    for _ in 0..20_000 {
        short_square(draw, put);
        long_square(draw, put);
        put(draw.word());
    }
}

/// Both ends of a binade with their neighbours, its middle, and tails whose digits are any, only the
/// last few, only the first few.
fn tails(draw: &mut Draw) -> [u64; 8] {
    let last = F64.last_tail();
    let few = 1 + draw.below(51) as u32;
    let low = draw.digits(few);
    let high = draw.digits(few) << (52 - few);
    [0, 1, last, last - 1, last / 2 + 1, draw.digits(52), low, high]
}

/// Subnormal doubles of so many digits: the first, the last, and any others.
fn subnormals(draw: &mut Draw, size: u32, put: &mut dyn FnMut(u64)) {
    let first = 1 << (size - 1);
    put(first);
    put(2 * first - 1);
    for _ in 0..100 {
        put(first | draw.digits(size));
    }
}

/// The square of a number of at most 26 digits, which a double holds, and its neighbours.
fn short_square(draw: &mut Draw, put: &mut dyn FnMut(u64)) {
    let size = 1 + draw.below(26) as u32;
    let root = draw.digits(size) | 1;
    with_neighbours(square(draw, root), put);
}

/// The square of a number of 53 digits, cut off to a double, and its neighbours. (Nearly every double is
/// within a step of such a square, so this is no class.)
fn long_square(draw: &mut Draw, put: &mut dyn FnMut(u64)) {
    let root = (1 << 52) | draw.digits(52);
    with_neighbours(square(draw, root), put);
}

fn with_neighbours(bits: u64, put: &mut dyn FnMut(u64)) {
    put(bits - 1);
    put(bits);
    put(bits + 1);
}

/// The double whose digits are the first 53 of root * root, at any scale that is a power of 4 away.
fn square(draw: &mut Draw, root: u64) -> u64 {
    let square = u128::from(root) * u128::from(root);
    let size = 128 - square.leading_zeros();
    let digits = if size < 53 { square << (53 - size) } else { square >> (size - 53) };
    scaled(draw, digits as u64, size % 2 == 0)
}

/// The pattern of digits * 2 ^ scale, for 53 digits and any scale that is odd or even, as asked. The
/// scale is the field less 1075.
fn scaled(draw: &mut Draw, digits: u64, odd: bool) -> u64 {
    let field = 2 * draw.below(1023) + if odd { 2 } else { 1 };
    F64.pattern(field, F64.tail(digits))
}

/// Doubles whose root is near a tie, at an even or an odd scale. With n = s * s + s + off, where off is
/// even, and h = 2 * s + 1, h * h is 4 * n + 1 - 4 * off. Of n's digits a double holds 53, so that the
/// others are 0, and 4 * n is a multiple of a power of 2. By that power h * h leaves what 1 - 4 * off
/// does. With one such h, the negative is one too, and so are both with half of the power added.
fn near_tie(draw: &mut Draw, off: i64, odd: bool, put: &mut dyn FnMut(u64)) {
    let power = if odd { 55 } else { 54 };
    let found = root_modulo((1 - 4 * off) as u64, power);
    for h in [found, found.wrapping_neg()] {
        for half in [0, 1 << (power - 1)] {
            let h = h.wrapping_add(half) % (1 << power);
            if let Some(digits) = digits_by_tie(h, off, power) {
                put(scaled(draw, digits, odd));
            }
        }
    }
}

/// An odd h for which h * h and a, which is 1 modulo 8, leave the same by 2 ^ power. Each turn makes one
/// digit more agree.
fn root_modulo(a: u64, power: u32) -> u64 {
    let mut h: u64 = 1;
    for at in 3..power {
        let wrong = h.wrapping_mul(h).wrapping_sub(a) >> at & 1;
        h = h.wrapping_add(wrong << (at - 1));
    }
    h
}

/// The 53 digits of n, as in `near_tie`, where h has 54 and n as many as the scale asks.
fn digits_by_tie(h: u64, off: i64, power: u32) -> Option<u64> {
    if h >> 53 != 1 {
        return None;
    }
    let n = (i128::from(h) * i128::from(h) - 1) / 4 + i128::from(off);
    let digits = n >> (power - 2);
    assert_eq!(digits << (power - 2), n, "n has more than 53 digits");
    if digits >> 52 == 1 {
        Some(digits as u64)
    } else {
        None
    }
}

/// Whether the root is exact.
fn is_square(bits: u64) -> bool {
    matches!(excess(bits), Some((_, 0)))
}

/// Whether the root is near a tie, and above it or not.
fn is_near_tie(bits: u64, above: bool) -> bool {
    match excess(bits) {
        Some((q, over)) => (over < 0) == above && q - over.abs() <= i128::from(NEAR),
        None => false,
    }
}
