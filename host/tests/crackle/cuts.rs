//! Recordings, and ways to cut them into consecutive pieces.
use cathar_host::damage;
use cathar_host::draw::Draw;
use cathar_host::settings;
use cathar_host::shapes::{bent, Shape};
use cathar_host::whole::{Start, MEAN_OVER};

/// Of so few samples every cut is tried.
pub const EVERY: usize = 10;

/// Of so few every cut is tried with empty pieces wherever there can be one.
pub const EVERY_EMPTY: usize = 8;

/// A sensitivity that is allowed.
pub fn sensitivity(draw: &mut Draw) -> f32 {
    loop {
        let sensitivity = settings::sensitivity(draw);
        if !sensitivity.is_nan() {
            return sensitivity;
        }
    }
}

/// Either start.
pub fn start(draw: &mut Draw) -> Start {
    Start::BOTH[draw.below(2) as usize]
}

/// How many samples: mostly few, and often about 8; at times some hundred or thousand, or about as many as the mean is
/// of.
pub fn length(draw: &mut Draw) -> usize {
    let (from, to) = match draw.below(64) {
        0 => (1_000, 4_001),
        1 => (MEAN_OVER as u64 - 8, MEAN_OVER as u64 + 12),
        2..=3 => (100, 1_000),
        4..=23 => (8, 100),
        24..=43 => (6, 11),
        _ => (0, 24),
    };
    (from + draw.below(to - from)) as usize
}

/// So many samples in range: of any shape and mostly with clicks, or with bends at any places.
pub fn samples(draw: &mut Draw, n: usize) -> Vec<u32> {
    if (2..=14).contains(&n) && draw.below(4) == 0 {
        let chosen = draw.word() as usize;
        return bent(draw, n, chosen);
    }
    let mut samples = Shape::ALL[draw.below(Shape::ALL.len() as u64) as usize].samples(draw, n);
    if n > 0 && draw.below(4) != 0 {
        damage::click(draw, &mut samples);
    }
    samples
}

/// Pieces of at most so many samples that make n in all, with empty ones among them, or none.
fn up_to(draw: &mut Draw, n: usize, most: usize) -> Vec<usize> {
    let empty = draw.below(2) == 0;
    let (mut lengths, mut left) = (Vec::new(), n);
    while left > 0 {
        let length = (usize::from(!empty) + draw.below(most as u64) as usize).min(left);
        lengths.push(length);
        left -= length;
    }
    lengths
}

/// Pieces of one length, of which the last may be shorter.
pub fn each_of(n: usize, length: usize) -> Vec<usize> {
    let mut lengths = vec![length; n / length];
    if n % length > 0 {
        lengths.push(n % length);
    }
    lengths
}

/// Hands on every cut of n samples in two, and every one in three of which both cuts are among the last places, from
/// this one on.
pub fn each_in_two(n: usize, last: usize, put: &mut dyn FnMut(Vec<usize>)) {
    for first in 0..=n {
        put(vec![first, n - first]);
    }
    for (first, second) in (last..=n).flat_map(|first| (first..=n).map(move |second| (first, second))) {
        put(vec![first, second - first, n - second]);
    }
}

/// Any cut of n samples: all in one piece, in two, in pieces of 1, of one length, or of any; half of the time with
/// empty pieces put in.
pub fn any(draw: &mut Draw, n: usize) -> Vec<usize> {
    let mut lengths = match draw.below(8) {
        0 => vec![n],
        1 => {
            let first = draw.below(n as u64 + 1) as usize;
            vec![first, n - first]
        }
        2 => vec![1; n],
        3 => each_of(n, 480),
        4 => {
            let length = 1 + draw.below(20) as usize;
            each_of(n, length)
        }
        5 => up_to(draw, n, 2),
        6 => up_to(draw, n, 6),
        _ => up_to(draw, n, 2 + n),
    };
    if draw.below(2) == 0 {
        for _ in 0..1 + draw.below(3) {
            let place = draw.below(lengths.len() as u64 + 1) as usize;
            lengths.insert(place, 0);
        }
    }
    lengths
}

/// The cut of n samples behind each place that is a digit of this number.
fn behind(n: usize, chosen: usize) -> Vec<usize> {
    let mut lengths: Vec<usize> = Vec::new();
    for place in 0..n {
        match lengths.last_mut() {
            Some(last) if chosen >> place & 1 == 0 => *last += 1,
            _ => lengths.push(1),
        }
    }
    lengths
}

/// Hands on every cut of n samples into pieces that are not empty.
pub fn each(n: usize, put: &mut dyn FnMut(Vec<usize>)) {
    for chosen in 0..1 << n.saturating_sub(1) {
        put(behind(n, chosen << 1));
    }
}

/// Hands on every cut of n samples, with every choice of where an empty piece stands: before, between and behind.
pub fn each_with_empty(n: usize, put: &mut dyn FnMut(Vec<usize>)) {
    each(n, &mut |lengths| {
        for chosen in 0..1 << (lengths.len() + 1) {
            let mut all = Vec::new();
            for (place, length) in lengths.iter().enumerate() {
                if chosen >> place & 1 == 1 {
                    all.push(0);
                }
                all.push(*length);
            }
            if chosen >> lengths.len() & 1 == 1 {
                all.push(0);
            }
            put(all);
        }
    });
}
