//! Doubles to narrow to f32.
use super::cut::{shapes, Cut};
use cathar_host::draw::Draw;
use cathar_host::float::F64;
use cathar_host::tally::Class;

/// The field from 2 ^ -150 on: below it a number is less than half of the least f32.
const FIRST: u64 = 873;
/// The field from 2 ^ -126 on: the f32 is normal.
const NORMAL: u64 = 897;
/// The field up to 2 ^ 128, the last whose numbers an f32 may hold.
const LAST: u64 = 1150;

pub const CLASSES: &[Class] = &[
    Class { name: "normal, below 2^-150", holds: |f, b| f.is_normal(b) && f.field(b) < FIRST },
    Class { name: "subnormal at f32", holds: |f, b| (FIRST..NORMAL).contains(&f.field(b)) },
    Class { name: "normal at f32", holds: |f, b| (NORMAL..=LAST).contains(&f.field(b)) },
    Class { name: "finite, 2^128 or more", holds: |f, b| f.is_normal(b) && f.field(b) > LAST },
    Class { name: "nothing dropped", holds: |_, b| is_cut(b, |c| c.part == 0) },
    Class { name: "all dropped digits are ones", holds: |_, b| is_cut(b, |c| c.part + 1 == 2 * c.half) },
    Class { name: "tie, normal, kept even", holds: |f, b| is_tie(b, 0) && f.field(b) >= NORMAL },
    Class { name: "tie, normal, kept odd", holds: |f, b| is_tie(b, 1) && f.field(b) >= NORMAL },
    Class { name: "tie, subnormal, kept even", holds: |f, b| is_tie(b, 0) && f.field(b) < NORMAL },
    Class { name: "tie, subnormal, kept odd", holds: |f, b| is_tie(b, 1) && f.field(b) < NORMAL },
    Class { name: "one step below a tie, normal", holds: |f, b| before_tie(b) && f.field(b) >= NORMAL },
    Class { name: "one step above a tie, normal", holds: |f, b| after_tie(b) && f.field(b) >= NORMAL },
    Class { name: "one step below a tie, subnormal", holds: |f, b| before_tie(b) && f.field(b) < NORMAL },
    Class { name: "one step above a tie, subnormal", holds: |f, b| after_tie(b) && f.field(b) < NORMAL },
    Class { name: "2^-150, half of the least f32", holds: |f, b| f.magnitude(b) == f.pattern(FIRST, 0) },
    Class { name: "one step below 2^-150", holds: |f, b| f.magnitude(b) + 1 == f.pattern(FIRST, 0) },
    Class { name: "one step above 2^-150", holds: |f, b| f.magnitude(b) == f.pattern(FIRST, 1) },
    Class { name: "carried into the next binade", holds: |f, b| carries(b) && f.field(b) < LAST },
    Class { name: "carried from subnormal to normal", holds: |f, b| carries(b) && f.field(b) + 1 == NORMAL },
    Class { name: "carried to infinity", holds: |f, b| carries(b) && f.field(b) == LAST },
    Class { name: "one step short of infinity", holds: |f, b| f.magnitude(b) == 0x47ef_ffff_efff_ffff },
];

/// One turn: every sign and field, more of those in f32's range and beside it, and any pattern.
pub fn turn(draw: &mut Draw, put: &mut dyn FnMut(u64)) {
    for top in 0..F64.tops() {
        shapes(draw, F64, top, dropped(F64.field_of_top(top)), put);
    }
    for _ in 0..8 {
        for field in FIRST - 1..=LAST + 1 {
            shapes(draw, F64, field, dropped(field), put);
            shapes(draw, F64, F64.tops() / 2 + field, dropped(field), put);
        }
    }
    for _ in 0..20_000 {
        put(draw.word());
    }
}

/// How many of the 53 digits an f32 drops: 29, and one more for each field below the normal ones, at
/// the first all 53. Outside f32's range, where nothing depends on it, 29.
fn dropped(field: u64) -> u32 {
    if (FIRST..NORMAL).contains(&field) {
        (926 - field) as u32
    } else {
        29
    }
}

/// Whether the number is in f32's range, and is cut so.
fn is_cut(bits: u64, so: fn(Cut) -> bool) -> bool {
    let field = F64.field(bits);
    (FIRST..=LAST).contains(&field) && so(Cut::new(F64.digits(bits), dropped(field)))
}

/// Whether the number is half way between two f32, and the last digit kept is this one.
fn is_tie(bits: u64, last: u64) -> bool {
    if last == 0 {
        is_cut(bits, |c| c.is_tie(0))
    } else {
        is_cut(bits, |c| c.is_tie(1))
    }
}

fn before_tie(bits: u64) -> bool {
    is_tie(bits.wrapping_add(1), 0) || is_tie(bits.wrapping_add(1), 1)
}

fn after_tie(bits: u64) -> bool {
    is_tie(bits.wrapping_sub(1), 0) || is_tie(bits.wrapping_sub(1), 1)
}

/// Whether the digits kept are all ones, and rounding adds one more.
fn carries(bits: u64) -> bool {
    is_cut(bits, |c| c.part >= c.half && c.kept > 0 && (c.kept + 1).is_power_of_two())
}
