//! The crackle detector in pieces against the model of its calls, from either start: every answer and value, and every
//! byte of state, piece and room, with what stands around each lent area. Beside the model each call is held to an
//! account of what was given before it, and the flags of all calls joined to those of the whole recording: worked out
//! by the documents' rules, as the original Rust shows them by what it rewrites, where the floor starts as the
//! original's does, and as the library's own decrackle names them.
//!
//! `CATHAR_SEED` sets the seed.
mod crackle {
    pub mod account;
    pub mod classes;
    pub mod cuts;
    pub mod feed;
    pub mod joined;
    pub mod run;
    pub mod stops;
    pub mod wild;
}

use cathar_host::count::Count;
use cathar_host::crackle::{RUN_WORDS, STATE_WORDS};
use cathar_host::damage;
use cathar_host::draw::{self, Draw};
use cathar_host::recording::{Answer, MOST_SAMPLES};
use cathar_host::settings;
use cathar_host::shapes::{at_limit, bent, beside_limit, Shape};
use cathar_host::whole::{Start, MEAN_OVER};
use crackle::classes::{Calls, ANNOUNCED, BESIDE, CUT, STOPPED, WILD};
use crackle::feed::{give, give_in_turn, Feed, Given};
use crackle::joined::{self, Recordings, CLASSES, LONG};
use crackle::run::{room, silent, Run};
use crackle::{cuts, stops, wild};

/// How many recordings are cut at random, two by two in turn, and how many have a click beside the limit.
const PAIRS: u64 = 200_000;
const BESIDE_LIMIT: u64 = 1_000;

/// How many recordings there are for each cut of few samples: with empty pieces among them, and without.
const WITH_EMPTY: usize = 2;
const FOR_EACH_CUT: usize = 12;

/// How many there are, beside 1,024 samples, for each cut in three.
const IN_THREE: usize = 8;

/// How many sequences of calls in any order, announcements of any sensitivity, and states of any words are tried.
const WALKS: u64 = 40_000;
const SENSITIVITIES: u64 = 20_000;
const WILD_STATES: u64 = 300_000;

/// These samples in pieces of these lengths, from either start.
fn give_both(
    (calls, recordings): (&mut Calls, &mut Recordings),
    draw: &mut Draw,
    samples: &[u32],
    sensitivity: f32,
    lengths: &[usize],
) {
    for start in Start::BOTH {
        let given = Given { samples: samples.to_vec(), sensitivity, start, lengths: lengths.to_vec() };
        give((calls, recordings), draw, given);
    }
}

/// Every cut of few samples, with empty pieces and without; and of 8 and 9 samples with every choice of those that
/// bend.
fn every_cut((calls, recordings): (&mut Calls, &mut Recordings), draw: &mut Draw) {
    for n in 0..=cuts::EVERY_EMPTY {
        cuts::each_with_empty(n, &mut |lengths| {
            for _ in 0..WITH_EMPTY {
                let (samples, sensitivity) = (cuts::samples(draw, n), cuts::sensitivity(draw));
                give_both((calls, recordings), draw, &samples, sensitivity, &lengths);
            }
        });
    }
    for n in 0..=cuts::EVERY {
        cuts::each(n, &mut |lengths| {
            for _ in 0..FOR_EACH_CUT {
                let (samples, sensitivity) = (cuts::samples(draw, n), cuts::sensitivity(draw));
                give_both((calls, recordings), draw, &samples, sensitivity, &lengths);
            }
        });
    }
    for n in [8, 9] {
        cuts::each(n, &mut |lengths| {
            for chosen in 0..1 << (n - 2) {
                let (samples, sensitivity) = (bent(draw, n, chosen << 1), cuts::sensitivity(draw));
                give_both((calls, recordings), draw, &samples, sensitivity, &lengths);
            }
        });
    }
}

/// A recording of any samples, cut in any way, is announced, from either start.
fn any_feed(calls: &mut Calls, draw: &mut Draw) -> Feed {
    let n = cuts::length(draw);
    let (samples, sensitivity, lengths) = (cuts::samples(draw, n), cuts::sensitivity(draw), cuts::any(draw, n));
    let start = cuts::start(draw);
    Feed::new(calls, draw, Given { samples, sensitivity, start, lengths })
}

#[test]
fn however_it_is_cut() {
    let seed = draw::seed();
    let mut draw = Draw::new(seed);
    let mut calls = Count::new("calls of the crackle detector against the model", &[CUT]);
    let mut recordings = Count::new("flags joined, against those of the whole recording", &[CLASSES]);
    calls.begin("a click at the limit, in silence");
    recordings.begin("a click at the limit, in silence");
    at_limit(&mut |samples, sensitivity| {
        let lengths = cuts::any(&mut draw, samples.len());
        give_both((&mut calls, &mut recordings), &mut draw, samples, sensitivity, &lengths);
    });
    calls.begin("a click beside the limit");
    recordings.begin("a click beside the limit");
    for _ in 0..BESIDE_LIMIT {
        beside_limit(&mut draw, Start::Mean, &mut |draw, samples, sensitivity| {
            let lengths = cuts::any(draw, samples.len());
            give_both((&mut calls, &mut recordings), draw, samples, sensitivity, &lengths);
        });
    }
    calls.begin("every cut of up to 10 samples");
    recordings.begin("every cut of up to 10 samples");
    every_cut((&mut calls, &mut recordings), &mut draw);
    calls.begin("cut at random");
    recordings.begin("cut at random");
    for _ in 0..PAIRS {
        let two = [any_feed(&mut calls, &mut draw), any_feed(&mut calls, &mut draw)];
        give_in_turn((&mut calls, &mut recordings), &mut draw, two);
    }
    calls.print(seed);
    recordings.close(seed);
    calls.hold();
}

/// Recordings of about as many samples as the mean is of: every cut in two, and in three beside the last of these.
#[test]
fn beside_1024_samples() {
    let seed = draw::seed();
    let mut draw = Draw::new(seed);
    let mut calls = Count::new("calls beside 1,024 samples", &[BESIDE]);
    let mut recordings = Count::new("flags joined, beside 1,024 samples", &[joined::BESIDE]);
    for n in MEAN_OVER - 1..=MEAN_OVER + 2 {
        let source = ["of 1,023 samples", "of 1,024", "of 1,025", "of 1,026"][n + 1 - MEAN_OVER];
        calls.begin(source);
        recordings.begin(source);
        cuts::each_in_two(n, MEAN_OVER - 4, &mut |lengths| {
            for _ in 0..if lengths.len() > 2 { IN_THREE } else { 1 } {
                let (mut samples, sensitivity) = (cuts::samples(&mut draw, n), cuts::sensitivity(&mut draw));
                if draw.below(2) == 0 {
                    damage::click(&mut draw, &mut samples[MEAN_OVER - 4..]);
                }
                give_both((&mut calls, &mut recordings), &mut draw, &samples, sensitivity, &lengths);
            }
        });
    }
    calls.print(seed);
    recordings.close(seed);
    calls.hold();
}

/// A tone of the most samples, with clicks.
fn longest(draw: &mut Draw) -> Vec<u32> {
    let mut samples = Shape::Tone.samples(draw, MOST_SAMPLES);
    damage::click(draw, &mut samples);
    samples
}

#[test]
fn of_the_most_samples() {
    let seed = draw::seed();
    let mut draw = Draw::new(seed);
    let mut calls = Count::new("calls on runs of the most samples", &[]);
    let mut recordings = Count::new("flags joined, of the most samples", &[LONG]);
    calls.begin("in pieces of 480, of 65,536, of any length, and in one");
    recordings.begin("in pieces of 480, of 65,536, of any length, and in one");
    let n = MOST_SAMPLES;
    let mut any = cuts::each_of(n, 4_999);
    any.insert(3, 0);
    for lengths in [cuts::each_of(n, 480), cuts::each_of(n, 65_536), any, vec![n]] {
        let (samples, sensitivity) = (longest(&mut draw), cuts::sensitivity(&mut draw));
        give_both((&mut calls, &mut recordings), &mut draw, &samples, sensitivity, &lengths);
    }
    for start in Start::BOTH {
        let mut run = Run::new(silent(&mut draw, STATE_WORDS));
        let mut samples = longest(&mut draw);
        samples.push(0);
        assert_eq!(run.begin(&mut calls, n + 1, 5.0, start), Answer::Refused(2));
        assert_eq!(run.begin(&mut calls, n, 5.0, start), Answer::Accepted(0));
        assert_eq!(run.piece(&mut calls, &samples, vec![0; n + 1]), Answer::Refused(13));
        assert_eq!(run.begin(&mut calls, n, 5.0, start), Answer::Accepted(0));
        samples[n - 1] = 0x7f80_0000;
        assert_eq!(run.piece(&mut calls, &samples[..n], vec![0; n]), Answer::RefusedAt(7, n - 1));
    }
    calls.print(seed);
    recordings.close(seed);
    calls.hold();
}

#[test]
fn stopped_and_refused() {
    let seed = draw::seed();
    let mut draw = Draw::new(seed);
    let mut calls = Count::new("runs that are stopped, and refused calls", &[STOPPED]);
    calls.begin("every choice of what applies to a piece");
    stops::each(&mut calls, &mut draw);
    calls.begin("calls in any order");
    for _ in 0..WALKS {
        stops::walk(&mut calls, &mut draw);
    }
    calls.close(seed);
}

/// Totals on which something turns.
const TOTALS: [usize; 18] = [
    0,
    1,
    2,
    7,
    8,
    9,
    MEAN_OVER,
    MEAN_OVER + 1,
    4_096,
    MOST_SAMPLES - 1,
    MOST_SAMPLES,
    MOST_SAMPLES + 1,
    2 * MOST_SAMPLES,
    u32::MAX as usize,
    1 << 32,
    (1 << 32) + 9,
    usize::MAX / 2 + 1,
    usize::MAX,
];

/// NaN of both signs, quiet and signalling.
const NANS: [u32; 4] = [0x7fc0_0000, 0xffc0_0001, 0x7f80_0001, 0xffbf_ffff];

/// A few calls on what an announcement left.
fn after_announcement(calls: &mut Calls, draw: &mut Draw, run: &mut Run) {
    for n in [0, 1, 2, 3, 0] {
        let bad = usize::from(draw.below(8) == 0);
        let samples = stops::piece(draw, n, bad);
        let bytes = stops::any_room(draw, n);
        run.piece(calls, &samples, bytes);
    }
    let bytes = stops::any_room(draw, 6);
    run.end(calls, bytes);
}

/// Numbers of words that a state has: few, as many as the mean is of, and beside those that it needs.
const WORDS: [usize; 17] =
    [0, 1, 2, 3, 6, 7, 8, 9, 10, 64, MEAN_OVER, MEAN_OVER + 1, 1_030, 1_031, STATE_WORDS, 1_033, 1_100];

#[test]
fn announced() {
    let seed = draw::seed();
    let mut draw = Draw::new(seed);
    let mut calls = Count::new("announcements, and states of any number of words", &[ANNOUNCED]);
    calls.begin("every total, sensitivity and number of words");
    let nans = NANS.into_iter().map(f32::from_bits);
    let sensitivities: Vec<f32> = settings::SENSITIVITIES.into_iter().chain(nans).collect();
    for (words, total) in WORDS.into_iter().flat_map(|words| TOTALS.map(|total| (words, total))) {
        for (sensitivity, start) in sensitivities.iter().flat_map(|of| Start::BOTH.map(|start| (*of, start))) {
            let mut run = Run::new(silent(&mut draw, words));
            run.begin(&mut calls, total, sensitivity, start);
            after_announcement(&mut calls, &mut draw, &mut run);
            run.begin(&mut calls, 9, 5.0, cuts::start(&mut draw));
            run.piece(&mut calls, &[0x3f80_0000], Vec::new());
            run.begin(&mut calls, total, sensitivity, start);
            after_announcement(&mut calls, &mut draw, &mut run);
        }
    }
    calls.begin("any sensitivity");
    for start in Start::BOTH {
        for _ in 0..SENSITIVITIES {
            let mut run = Run::new(silent(&mut draw, STATE_WORDS));
            let sensitivity = settings::sensitivity(&mut draw);
            run.begin(&mut calls, 6, sensitivity, start);
            after_announcement(&mut calls, &mut draw, &mut run);
        }
    }
    calls.close(seed);
}

#[test]
fn on_any_words() {
    let seed = draw::seed();
    let mut draw = Draw::new(seed);
    let mut calls = Count::new("calls on states of any words", &[WILD]);
    calls.begin("a few calls on each");
    for _ in 0..WILD_STATES {
        wild::tried(&mut calls, &mut draw);
    }
    calls.close(seed);
}

/// The words of a run as an announcement leaves it, for so many samples at sensitivity 10. The last tells the start.
fn begun(total: u32, start: u32) -> [u32; RUN_WORDS] {
    [total, 0, 1, 0x4000_0000, 0x3586_37bd, 0, 0, start]
}

/// Both sides are given a piece, which has to be accepted. The flags that it gives.
fn flags_of(run: &mut Run, calls: &mut Calls, piece: &[f32]) -> Vec<u8> {
    let words: Vec<u32> = piece.iter().map(|x| x.to_bits()).collect();
    let before = run.account.flags.len();
    assert_eq!(run.piece(calls, &words, vec![7; 9]).number(), 0);
    run.account.flags[before..].to_vec()
}

/// By hand: the document's 9 samples of which place 4 is 1, at sensitivity 10, in pieces of 4, 1, 0 and 4. Places 3, 4
/// and 5 are flagged.
#[test]
fn by_hand() {
    let mut calls = Count::new("the crackle detector by hand", &[]);
    calls.begin("9 samples");
    let mut run = Run::new(vec![0; STATE_WORDS]);
    assert_eq!(run.begin(&mut calls, 9, 10.0, Start::Old), Answer::Accepted(0));
    assert_eq!(run.state()[..RUN_WORDS], begun(9, 0));
    assert_eq!(flags_of(&mut run, &mut calls, &[0.0; 4]), [0, 0, 0]);
    assert_eq!(flags_of(&mut run, &mut calls, &[1.0]), [1]);
    assert_eq!(flags_of(&mut run, &mut calls, &[]), []);
    assert_eq!(flags_of(&mut run, &mut calls, &[0.0; 4]), [1, 1, 0, 0]);
    assert_eq!(run.end(&mut calls, vec![]), Answer::Refused(6));
    assert_eq!(run.end(&mut calls, vec![7; 1]), Answer::Accepted(1));
    assert_eq!(run.account.flags, [0, 0, 0, 1, 1, 1, 0, 0, 0]);
    assert_eq!(run.end(&mut calls, vec![7; 1]), Answer::Refused(13));
    assert_eq!(run.state()[RUN_WORDS..], [0; MEAN_OVER]);
    calls.close(0);
}

/// By hand: with only 7 announced nothing is flagged; and of 10 the sixth is not in range, which stops the run.
#[test]
fn by_hand_stopped() {
    let mut calls = Count::new("the crackle detector by hand", &[]);
    calls.begin("7 and 10 samples");
    let mut run = Run::new(vec![0; STATE_WORDS]);
    assert_eq!(run.begin(&mut calls, 7, 10.0, Start::Old), Answer::Accepted(0));
    assert_eq!(flags_of(&mut run, &mut calls, &[0.0, 0.0, 1.0, 0.0, 0.0, 0.0, 0.0]), [0; 6]);
    assert_eq!(run.end(&mut calls, vec![7; 1]), Answer::Accepted(1));
    assert_eq!(run.begin(&mut calls, 10, 10.0, Start::Old), Answer::Accepted(0));
    assert_eq!(run.state()[..RUN_WORDS], begun(10, 0));
    assert_eq!(flags_of(&mut run, &mut calls, &[0.0; 4]), [0; 3]);
    let nan = [0, 0x7fc0_0000, 0];
    assert_eq!(run.piece(&mut calls, &nan, vec![7; 2]), Answer::Refused(6));
    assert_eq!(run.piece(&mut calls, &nan, vec![7; 3]), Answer::RefusedAt(7, 5));
    assert_eq!(run.piece(&mut calls, &[], vec![]), Answer::Refused(13));
    assert_eq!(run.end(&mut calls, room(&mut Draw::new(1), 1)), Answer::Refused(13));
    calls.close(0);
}

/// By hand, from the mean: the same 9 samples at sensitivity 9. All flags come at the end, and of the values 0, 0, 0,
/// -1/2, 1, -1/2, 0, 0, 0, whose mean is 2/9, only that of place 4 is above three times that.
#[test]
fn by_hand_from_the_mean() {
    let mut calls = Count::new("the crackle detector by hand", &[]);
    calls.begin("9 samples, from the mean");
    let mut run = Run::new(vec![5; STATE_WORDS]);
    assert_eq!(run.begin(&mut calls, 9, 9.0, Start::Mean), Answer::Accepted(0));
    assert_eq!(run.state()[..RUN_WORDS], [9, 0, 1, 0x4040_0000, 0x3586_37bd, 0, 0, 1]);
    assert_eq!(run.state()[RUN_WORDS..], [5; MEAN_OVER]);
    for piece in [&[0.0; 4][..], &[1.0], &[], &[0.0; 4]] {
        assert_eq!(flags_of(&mut run, &mut calls, piece), []);
    }
    assert_eq!(run.state()[..RUN_WORDS], [9, 9, 1, 0x4040_0000, 0x3586_37bd, 0, 0, 1]);
    let values = [0, 0, 0, 0xbf00_0000, 0x3f80_0000, 0xbf00_0000, 0, 0];
    assert_eq!(run.state()[RUN_WORDS..RUN_WORDS + 9], [&values[..], &[5]].concat());
    assert_eq!(run.end(&mut calls, vec![7; 8]), Answer::Refused(6));
    assert_eq!(run.end(&mut calls, vec![7; 9]), Answer::Accepted(9));
    assert_eq!(run.account.flags, [0, 0, 0, 0, 1, 0, 0, 0, 0]);
    assert_eq!(run.state()[..RUN_WORDS], [9, 9, 0, 0x4040_0000, 0x3586_37bd, 0, 0, 1]);
    assert_eq!(run.state()[RUN_WORDS..RUN_WORDS + 10], [&values[..], &[0, 5]].concat());
    assert_eq!(run.end(&mut calls, vec![7; 9]), Answer::Refused(13));
    calls.close(0);
}

/// By hand, from the mean: 1,026 samples of which place 3 is 1, at sensitivity 10. No flag comes with 1,024 samples,
/// 1,024 come with the next, and one each with the last and at the end. The sum of the values is 2, and the mean
/// 1/512.
#[test]
fn by_hand_of_1026() {
    let mut calls = Count::new("the crackle detector by hand", &[]);
    calls.begin("1,026 samples, from the mean");
    let mut run = Run::new(vec![5; STATE_WORDS]);
    let mut samples = vec![0; MEAN_OVER];
    samples[3] = 0x3f80_0000;
    assert_eq!(run.begin(&mut calls, MEAN_OVER + 2, 10.0, Start::Mean), Answer::Accepted(0));
    assert_eq!(run.piece(&mut calls, &samples, vec![]), Answer::Accepted(0));
    assert_eq!((run.state()[1], run.state()[4]), (1_024, 0x3586_37bd));
    assert_eq!(run.state()[STATE_WORDS - 1], 5);
    assert_eq!(run.piece(&mut calls, &[0], vec![7; MEAN_OVER - 1]), Answer::Refused(6));
    assert_eq!(run.state()[STATE_WORDS - 1], 5);
    assert_eq!(run.piece(&mut calls, &[0], vec![7; MEAN_OVER]), Answer::Accepted(MEAN_OVER));
    assert_eq!((run.state()[1], run.state()[STATE_WORDS - 1]), (1_025, 0));
    let mut flags = vec![0; MEAN_OVER + 2];
    flags[2..5].fill(1);
    assert_eq!(run.account.flags, flags[..MEAN_OVER]);
    let mut floor = 1.0f32 / 512.0;
    for a in [0.0, 0.0, 0.5, 1.0, 0.5].into_iter().chain([0.0; MEAN_OVER - 5]) {
        floor = floor * (1.0 - 0.001) + a * 0.001;
    }
    assert_eq!(run.state()[4], floor.to_bits());
    assert_eq!(run.piece(&mut calls, &[0], vec![7; 1]), Answer::Accepted(1));
    assert_eq!(run.end(&mut calls, vec![7; 1]), Answer::Accepted(1));
    assert_eq!(run.account.flags, flags);
    calls.close(0);
}
