//! Floats to round to whole numbers.
use super::cut::{shapes, Cut};
use cathar_host::draw::Draw;
use cathar_host::float::F32;
use cathar_host::tally::Class;

/// The field from 1/2 on.
const HALF: u64 = 126;
/// The field from 2 ^ 23 on: every f32 is whole.
const WHOLE: u64 = 150;
/// The stride of a walk over all patterns: odd, so that the walk meets every word of 32 bits.
const STRIDE: u64 = 0x9e37_79b1;

pub const CLASSES: &[Class] = &[
    Class { name: "normal, below 1/2", holds: |f, b| f.is_normal(b) && f.field(b) < HALF },
    Class { name: "1/2 to 2^23", holds: |f, b| (HALF..WHOLE).contains(&f.field(b)) },
    Class { name: "finite, 2^23 or more", holds: |f, b| f.is_normal(b) && f.field(b) >= WHOLE },
    Class { name: "whole, below 2^23", holds: |_, b| is_cut(b, |c| c.part == 0) },
    Class { name: "tie, whole part even", holds: |_, b| is_cut(b, |c| c.is_tie(0)) },
    Class { name: "tie, whole part odd", holds: |_, b| is_cut(b, |c| c.is_tie(1)) },
    Class { name: "one step below a tie", holds: |_, b| is_tie(b.wrapping_add(1)) },
    Class { name: "one step above a tie", holds: |_, b| is_tie(b.wrapping_sub(1)) },
    Class { name: "1/2", holds: |f, b| f.magnitude(b) == f.pattern(HALF, 0) },
    Class { name: "one step below 1/2", holds: |f, b| f.magnitude(b) + 1 == f.pattern(HALF, 0) },
    Class { name: "2^23 - 1/2, the last tie", holds: |f, b| f.magnitude(b) + 1 == f.pattern(WHOLE, 0) },
];

/// One turn: every sign and field, halves beside powers of 2, and a part of the walk over all.
pub fn turn(draw: &mut Draw, put: &mut dyn FnMut(u64)) {
    for top in 0..F32.tops() {
        shapes(draw, F32, top, dropped(F32.field_of_top(top)), put);
    }
    for power in 0..24 {
        halves_beside(1 << power, put);
    }
    let mut at = draw.digits(32);
    for _ in 0..40_000 {
        at = (at + STRIDE) % (1 << 32);
        put(at);
    }
}

/// The halves within 8 of this number that an f32 holds, with their neighbours and with each sign.
fn halves_beside(number: i32, put: &mut dyn FnMut(u64)) {
    for twice in 2 * number - 15..2 * number + 16 {
        if twice % 2 == 1 && twice < 1 << 24 {
            let bits = u64::from((twice as f32 / 2.0).to_bits());
            for near in [bits - 1, bits, bits + 1] {
                put(near);
                put(F32.pattern(F32.tops() / 2, 0) | near);
            }
        }
    }
}

/// How many of the 24 digits lie after the point, from 1/2 to 2 ^ 23. Elsewhere, where nothing depends
/// on it, 12.
fn dropped(field: u64) -> u32 {
    if (HALF..WHOLE).contains(&field) {
        (WHOLE - field) as u32
    } else {
        12
    }
}

/// Whether the number is within 1/2 to 2 ^ 23, and is cut so.
fn is_cut(bits: u64, so: fn(Cut) -> bool) -> bool {
    let field = F32.field(bits);
    (HALF..WHOLE).contains(&field) && so(Cut::new(F32.digits(bits), dropped(field)))
}

fn is_tie(bits: u64) -> bool {
    is_cut(bits, |c| c.part == c.half)
}
