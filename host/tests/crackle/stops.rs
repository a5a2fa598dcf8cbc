//! Calls that are refused and calls after them: every choice of what applies to a piece at once, on runs that stand in
//! every way, and calls in any order.
use super::account::Standing;
use super::classes::Calls;
use super::cuts;
use super::run::{room, silent, Run};
use cathar_host::crackle::{given, Call, STATE_WORDS};
use cathar_host::draw::Draw;
use cathar_host::recording::{Answer, MOST_SAMPLES};
use cathar_host::room::Room;
use cathar_host::whole::{Start, MEAN_OVER};

/// Words that are not in range: the next above the loudest, infinities, and NaN, a signalling one among them.
const BAD: [u32; 6] = [0x4780_0001, 0xc780_0001, 0x7f80_0000, 0xff80_0000, 0x7fc0_0000, 0xff80_0001];

/// How a run is to stand before a piece.
const STANDINGS: [Standing; 6] = [
    Standing::NotAnnounced,
    Standing::Open,
    Standing::StoppedByRange,
    Standing::StoppedByMore,
    Standing::StoppedByFewer,
    Standing::Ended,
];

/// So many samples, of which those at the chosen places, the digits of a number, are not in range.
pub fn piece(draw: &mut Draw, n: usize, bad: usize) -> Vec<u32> {
    let mut samples = cuts::samples(draw, n);
    for (place, word) in samples.iter_mut().enumerate().filter(|(place, _)| bad >> place & 1 == 1) {
        *word = BAD[(draw.word() as usize + place) % BAD.len()];
    }
    samples
}

/// A piece that is to be tried: from which start, how many samples are in and how many were announced, how many it has
/// and which of these are not in range, and how much room there is.
#[derive(Clone, Copy)]
struct Case {
    start: Start,
    taken: usize,
    total: usize,
    n: usize,
    bad: usize,
    room: usize,
}

/// A run on which so many samples of so many are in and which stands so, as far as it can.
fn brought(calls: &mut Calls, draw: &mut Draw, standing: Standing, case: &Case) -> Run {
    let mut run = Run::new(silent(draw, STATE_WORDS));
    if standing == Standing::NotAnnounced {
        return run;
    }
    let total = if standing == Standing::Ended { case.taken } else { case.total };
    let sensitivity = cuts::sensitivity(draw);
    run.begin(calls, total, sensitivity, case.start);
    let first = piece(draw, case.taken, 0);
    run.piece_again(calls, draw, &first);
    let (longer, bad) = (piece(draw, total - case.taken + 1, 0), piece(draw, 1, 1));
    let enough = vec![9; 16 + MEAN_OVER];
    match standing {
        Standing::StoppedByRange => drop(run.piece(calls, &bad, enough)),
        Standing::StoppedByMore => drop(run.piece(calls, &longer, enough)),
        Standing::StoppedByFewer | Standing::Ended => drop(run.end(calls, enough)),
        _ => {}
    }
    run
}

/// What is tried on a run that is over, or not: an empty piece, one of a sample, the end, and announcements that are
/// refused.
fn follow(calls: &mut Calls, draw: &mut Draw, run: &mut Run) {
    for _ in 0..3 {
        let (bytes, start) = ([0, 1, 2, MEAN_OVER + 1][draw.below(4) as usize], cuts::start(draw));
        let bytes = room(draw, bytes);
        match draw.below(5) {
            0 => run.piece(calls, &[], bytes),
            1 => {
                let one = piece(draw, 1, 0);
                run.piece(calls, &one, bytes)
            }
            2 => run.end(calls, bytes),
            3 => run.begin(calls, MOST_SAMPLES + 1, 5.0, start),
            _ => run.begin(calls, 9, f32::NAN, start),
        };
    }
}

/// A run is announced anew, and given a few samples and its end.
fn anew(calls: &mut Calls, draw: &mut Draw, run: &mut Run) {
    let (n, sensitivity, start) = (draw.below(10) as usize, cuts::sensitivity(draw), cuts::start(draw));
    run.begin(calls, n, sensitivity, start);
    let samples = piece(draw, n, 0);
    let (first, second) = samples.split_at(n / 2);
    run.piece_again(calls, draw, first);
    run.piece_again(calls, draw, second);
    let flags = if start == Start::Mean { n } else { n.min(1) };
    assert_eq!(run.end_again(calls, draw), Answer::Accepted(flags), "the end of {n} samples from {start:?}");
}

/// The piece on a run that stands so, and what follows.
fn try_case(calls: &mut Calls, draw: &mut Draw, standing: Standing, case: &Case) {
    let mut run = brought(calls, draw, standing, case);
    let samples = piece(draw, case.n, case.bad);
    let bytes = room(draw, case.room);
    if run.piece(calls, &samples, bytes).number() == 6 {
        let bytes = room(draw, case.n + MEAN_OVER);
        run.piece(calls, &samples, bytes);
    }
    follow(calls, draw, &mut run);
    anew(calls, draw, &mut run);
}

/// How many samples are in: few, and from the mean also about as many as it is of.
const TAKEN: [usize; 4] = [0, 1, 2, 9];
const BESIDE: [usize; 6] = [MEAN_OVER - 3, MEAN_OVER - 2, MEAN_OVER - 1, MEAN_OVER, MEAN_OVER + 1, MEAN_OVER + 2];

/// Tries every choice: how many samples are in, how long the piece is and whether it fits, which of its samples are not
/// in range, how much room there is, and how the run stands.
pub fn each(calls: &mut Calls, draw: &mut Draw) {
    let few = Start::BOTH.into_iter().flat_map(|start| TAKEN.map(|taken| (start, taken)));
    for (start, taken) in few.chain(BESIDE.map(|taken| (Start::Mean, taken))) {
        for (n, beside) in (0..=4).flat_map(|n| [0, 1, 2, 6].map(|beside| (n, beside))) {
            let total = (taken + n + beside).max(taken + 1) - 1;
            let gives = given(start, taken + n) - given(start, taken);
            for room in [0, gives.saturating_sub(1), gives, gives + 2] {
                for bad in 0..1 << n {
                    let case = Case { start, taken, total, n, bad, room };
                    STANDINGS.into_iter().for_each(|standing| try_case(calls, draw, standing, &case));
                }
            }
        }
    }
}

/// Room for what the call gives, mostly, of any bytes.
pub fn any_room(draw: &mut Draw, needed: usize) -> Vec<u8> {
    let length = Room::any(draw).of(draw, needed);
    room(draw, length)
}

/// A run of any total is announced, at times of about as many samples as the mean is of, and then most of them are
/// given.
fn begin_any(calls: &mut Calls, draw: &mut Draw, run: &mut Run) {
    let (sensitivity, start) = (cuts::sensitivity(draw), cuts::start(draw));
    if draw.below(16) != 0 {
        run.begin(calls, draw.below(20) as usize, sensitivity, start);
        return;
    }
    let total = MEAN_OVER - 4 + draw.below(16) as usize;
    run.begin(calls, total, sensitivity, start);
    let taken = (MEAN_OVER - 6 + draw.below(8) as usize).min(total);
    let samples = piece(draw, taken, 0);
    run.piece_again(calls, draw, &samples);
}

/// Calls in any order on one state.
pub fn walk(calls: &mut Calls, draw: &mut Draw) {
    let words = STATE_WORDS + draw.below(2) as usize;
    let mut run = Run::new(silent(draw, words));
    if draw.below(4) != 0 {
        begin_any(calls, draw, &mut run);
    }
    for _ in 0..4 + draw.below(24) {
        let n = draw.below(5) as usize;
        match draw.below(20) {
            0..=2 => begin_any(calls, draw, &mut run),
            3 => drop(run.begin(calls, MOST_SAMPLES + 1 + n, 5.0, cuts::start(draw))),
            4 => drop(run.begin(calls, n, f32::NAN, cuts::start(draw))),
            5..=6 => {
                let bytes = any_room(draw, run.gives(Call::End, 0));
                run.end(calls, bytes);
            }
            7 => run.go_on_from_copy(),
            _ => {
                let bad = if draw.below(8) == 0 { draw.word() as usize } else { 0 };
                let samples = piece(draw, n, bad);
                let bytes = any_room(draw, run.gives(Call::Piece, n));
                run.piece(calls, &samples, bytes);
            }
        }
    }
}
