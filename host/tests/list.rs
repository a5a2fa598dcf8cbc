//! The list of answers that the program `replay` runs, with what Rust's own operations give. Of the root,
//! narrowing and rounding it has, for each class of values, the first few that one turn of drawing meets;
//! of the other leaves, words at every edge, alone and in pairs. The file in the repository is held to
//! that. With `CATHAR_WRITE=1` it is written anew.
mod leaves {
    mod cut;
    pub mod narrow;
    pub mod root;
    pub mod whole;
}

use cathar_host::draw::{self, Draw};
use cathar_host::float::{word32, word64, Format, F32, F64};
use cathar_host::tally::{with_common, Class};
use leaves::{narrow, root, whole};
use std::env;
use std::fs;
use std::path::Path;

/// How many values of each class the list has.
const EACH: usize = 8;

/// Words at the edges: zeros, the least and the last subnormal, the least normal, ones, 65,536 and its
/// neighbours with each sign, the largest, infinities, a quiet and a signalling NaN.
const EDGES: [u32; 18] = [
    0x0000_0000,
    0x8000_0000,
    0x0000_0001,
    0x8000_0001,
    0x007f_ffff,
    0x0080_0000,
    0x3f80_0000,
    0xbf80_0000,
    0x477f_ffff,
    0x4780_0000,
    0x4780_0001,
    0xc780_0000,
    0xc780_0001,
    0x7f7f_ffff,
    0x7f80_0000,
    0xff80_0000,
    0x7fc0_0000,
    0xff80_0001,
];

/// Those of them that are paired: zeros, the least subnormals, ones, the largest, infinities, a NaN.
const PAIRED: [u32; 10] = [
    0x0000_0000,
    0x8000_0000,
    0x0000_0001,
    0x8000_0001,
    0x3f80_0000,
    0xbf80_0000,
    0x7f7f_ffff,
    0x7f80_0000,
    0xff80_0000,
    0x7fc0_0000,
];

/// Ends to hold a number to, each by the upper half of its word: 0 and 1, -0 and 0, 1 and 10, 0.1 to the
/// digits that fit and 1, and both infinities.
const ENDS: [(u16, u16); 5] =
    [(0x0000, 0x3f80), (0x8000, 0x0000), (0x3f80, 0x4120), (0x3dcc, 0x3f80), (0xff80, 0x7f80)];

/// One turn of drawing: hands each pattern on.
type Turn = fn(&mut Draw, &mut dyn FnMut(u64));

fn line(letter: char, given: u64, answer: u64) -> String {
    format!("{letter} {given:016x} {answer:016x}\n")
}

/// The lines of a leaf by classes.
fn drawn(letter: char, format: Format, classes: &[Class], turn: Turn, answer: fn(u64) -> u64) -> String {
    let classes = with_common(classes);
    let mut met = vec![0; classes.len()];
    let mut text = String::new();
    turn(&mut Draw::new(draw::SEED), &mut |bits| {
        let mut wanted = false;
        for (class, count) in classes.iter().zip(&mut met) {
            if *count < EACH && (class.holds)(format, bits) {
                *count += 1;
                wanted = true;
            }
        }
        if wanted {
            text += &line(letter, bits, answer(bits));
        }
    });
    assert!(met.iter().all(|count| *count > 0), "a class of {letter} was not met");
    text
}

/// The lines of a leaf of one f32, at every edge.
fn alone(letter: char, answer: fn(f32) -> u64) -> String {
    EDGES.iter().map(|w| line(letter, u64::from(*w), answer(f32::from_bits(*w)))).collect()
}

/// The lines of the magnitude of an f64: every edge widened, and once more with all digits below it set.
fn doubles() -> String {
    let widened = EDGES.iter().map(|w| f64::from(f32::from_bits(*w)));
    let both = widened.flat_map(|x| [x.to_bits(), x.to_bits() | 0x1fff_ffff]);
    both.map(|bits| line('d', bits, word64(f64::from_bits(bits).abs()))).collect()
}

/// The lines of a leaf of two f32.
fn pairs(letter: char, answer: fn(f32, f32) -> u64) -> String {
    let mut text = String::new();
    for a in PAIRED {
        for b in PAIRED {
            let given = u64::from(a) << 32 | u64::from(b);
            text += &line(letter, given, answer(f32::from_bits(a), f32::from_bits(b)));
        }
    }
    text
}

/// The lines of the clamp: every edge, held to all of the ends.
fn held() -> String {
    let mut text = String::new();
    for x in EDGES {
        for (low, high) in ENDS {
            let given = u64::from(x) << 32 | u64::from(low) << 16 | u64::from(high);
            let end = |half: u16| f32::from_bits(u32::from(half) << 16);
            text += &line('c', given, word32(f32::from_bits(x).clamp(end(low), end(high))));
        }
    }
    text
}

/// The larger of two. Of two equals Rust's `max` may give either; the rule is that it is the first.
fn larger(a: f64, b: f64) -> f64 {
    if a == b {
        a
    } else {
        a.max(b)
    }
}

/// The smaller, likewise.
fn smaller(a: f32, b: f32) -> f32 {
    if a == b {
        a
    } else {
        a.min(b)
    }
}

fn list() -> String {
    [
        drawn('r', F64, root::CLASSES, root::turn, |bits| word64(f64::from_bits(bits).sqrt())),
        drawn('n', F64, narrow::CLASSES, narrow::turn, |bits| word32(f64::from_bits(bits) as f32)),
        drawn('w', F32, whole::CLASSES, whole::turn, |bits| word32(f32::from_bits(bits as u32).round())),
        alone('i', |x| u64::from(x.is_finite() && x.abs() <= 65536.0)),
        alone('x', |x| word64(f64::from(x))),
        alone('m', |x| word32(x.abs())),
        doubles(),
        pairs('l', |a, b| word32(larger(f64::from(a), f64::from(b)) as f32)),
        pairs('g', |a, b| word64(larger(f64::from(a), f64::from(b)))),
        pairs('s', |a, b| word32(smaller(a, b))),
        held(),
    ]
    .concat()
}

#[test]
fn the_list_that_replay_runs() {
    let file = Path::new(env!("CARGO_MANIFEST_DIR")).join("../crates/replay/stdin");
    if env::var_os("CATHAR_WRITE").is_some() {
        fs::write(&file, list()).expect("the list is written");
    }
    let stored = fs::read_to_string(&file).expect("the list is in the repository");
    assert!(stored == list(), "{} is not the list that this test makes", file.display());
    println!("the list that replay runs: {} lines, each as Rust's own operations give it", stored.lines().count());
}
