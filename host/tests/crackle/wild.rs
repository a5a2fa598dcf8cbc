//! States of any words, also such as no call leaves.
use super::classes::Calls;
use super::cuts;
use super::run::Run;
use super::stops::{any_room, piece};
use cathar_host::crackle::{self, RUN_WORDS};
use cathar_host::draw::Draw;
use cathar_host::recording::MOST_SAMPLES;
use cathar_host::room;
use cathar_host::whole::MEAN_OVER;

/// Floats on which something turns: zeros, subnormals, infinities and NaN of every kind.
const TURNS: [u32; 16] = [
    0x0000_0000,
    0x8000_0000,
    0x0000_0001,
    0x807f_ffff,
    0x0040_0000,
    0x3586_37bd,
    0x3586_37be,
    0xb586_37bd,
    0x7f7f_ffff,
    0x7f80_0000,
    0xff80_0000,
    0x7f80_0001,
    0xffbf_ffff,
    0x7fc0_0000,
    0x7fc0_0001,
    0xffff_ffff,
];

/// A number at its ends, near this one, or any.
fn count(draw: &mut Draw, near: u32) -> u32 {
    let by = draw.below(7) as u32;
    match draw.below(8) {
        0 => by,
        1 => u32::MAX - by,
        2 => draw.word() as u32,
        3 => near.wrapping_add(1 + by),
        _ => near.wrapping_sub(by),
    }
}

/// The word of a float: this one mostly, one of those above, or any.
fn float(draw: &mut Draw, usual: f32) -> u32 {
    match draw.below(8) {
        0..=1 => TURNS[draw.below(TURNS.len() as u64) as usize],
        2 => draw.word() as u32,
        _ => usual.to_bits(),
    }
}

/// A number from -1 to 1.
fn part(draw: &mut Draw) -> f32 {
    draw.digits(24) as f32 / 8_388_608.0 - 1.0
}

/// The third word: mostly 1.
fn goes_on(draw: &mut Draw) -> u32 {
    match draw.below(12) {
        0 => 0,
        1 => [2, 3, 0x100, 0x0100_0000, 0x8000_0001, u32::MAX][draw.below(6) as usize],
        2 => draw.word() as u32,
        _ => 1,
    }
}

/// The eighth word: mostly 1 or 0.
fn start(draw: &mut Draw) -> u32 {
    match draw.below(8) {
        0..=1 => 0,
        2 => [2, 3, 0x100, 0x101, 0x0100_0001, 0x8000_0001, u32::MAX][draw.below(7) as usize],
        3 => draw.word() as u32,
        _ => 1,
    }
}

/// The words of the values: any; of a quiet sound; or those of one, of which one or some are others.
fn values(draw: &mut Draw) -> Vec<u32> {
    if draw.below(8) == 0 {
        return room::words(draw, MEAN_OVER);
    }
    let (loud, spread) = (part(draw) * 1e-3, [u64::MAX, u64::MAX, 1_024, 64][draw.below(4) as usize]);
    let mut value = |_| match draw.below(spread) {
        0 => TURNS[draw.below(TURNS.len() as u64) as usize],
        _ => (loud * part(draw)).to_bits(),
    };
    (0..MEAN_OVER).map(&mut value).collect()
}

/// Any words of a state.
fn state(draw: &mut Draw) -> Vec<u32> {
    let of_mean = MEAN_OVER as u32 + 2;
    let near = [8, 30, of_mean, of_mean + 6, MOST_SAMPLES as u32, u32::MAX][draw.below(6) as usize];
    let total = count(draw, near);
    let last = if near == of_mean + 6 { of_mean } else { total };
    let taken = count(draw, last);
    let sign = if draw.below(4) == 0 { -1.0 } else { 1.0 };
    let factor = sign * (12.0 - cuts::sensitivity(draw).clamp(1.0, 10.0));
    let floor = part(draw).abs() * 1e-3;
    let [before, last] = [part(draw), part(draw)];
    let floats = [factor, floor, before, last].map(|usual| float(draw, usual));
    let mut words = vec![total, taken, goes_on(draw)];
    words.extend(floats);
    words.push(start(draw));
    words.extend(values(draw));
    words.extend((0..draw.below(3)).map(|_| draw.word() as u32));
    words
}

/// How many samples to give: as many as are left of the total, or one more or less, where these are few; or any few.
fn length(draw: &mut Draw, run: &crackle::Run) -> usize {
    let few = draw.below(6) as usize;
    match run.total.checked_sub(run.taken) {
        Some(left) if left < 24 && draw.below(2) == 0 => (left as usize + few % 3).saturating_sub(1),
        _ => few,
    }
}

/// A few calls on a state of any words, and at times one more when the run is over.
pub fn tried(calls: &mut Calls, draw: &mut Draw) {
    let mut run = Run::wild(state(draw));
    for turn in 0..5 {
        let before = crackle::Run::read(&run.state()[..RUN_WORDS]);
        if turn > 0 && !before.goes_on && draw.below(4) != 0 {
            return;
        }
        match draw.below(16) {
            0 => {
                let (sensitivity, start) = (cuts::sensitivity(draw), cuts::start(draw));
                run.begin(calls, before.total as usize, sensitivity, start);
            }
            1..=3 => {
                let bytes = any_room(draw, before.brought_by_end());
                run.end(calls, bytes);
            }
            _ => {
                let n = length(draw, &before);
                let bad = if draw.below(8) == 0 { draw.word() as usize } else { 0 };
                let samples = piece(draw, n, bad);
                let bytes = any_room(draw, before.brought_by(n));
                run.piece(calls, &samples, bytes);
            }
        }
    }
}
