//! What is timed: each task by the original and by the library, in turn, on the same samples.
use super::clock::thread_time;
use super::inputs::{self, CLIP};
use cathar_host::call::Call;
use cathar_host::cathar;
use cathar_host::crackle::STATE_WORDS;
use cathar_host::draw::{Draw, SEED};
use cathar_host::inpaint::{Gap, Lists, MOST_GAPS};
use cathar_host::lent::Lent;
use cathar_host::original;
use cathar_host::question::{by_each_mark, Span};
use cathar_host::recording::{entry_words, Recording};
use cathar_host::settings::OfScan;
use cathar_host::wav::{self, Areas};
use cathar_host::whole::{self, Repair, Start, MEAN_OVER};
use std::ptr;
use std::time::{Duration, Instant};

/// A task that takes less is run again until so much time has gone.
const AT_LEAST: Duration = Duration::from_millis(50);

/// How often the question is asked in one run.
pub const QUESTIONS: u32 = 100;

/// How many roots are taken in one run.
pub const ROOTS: usize = 65_536;

/// The sensitivity of the crackle detector.
const SENSITIVITY: f32 = 5.0;

/// A scan's rate and limit, which is 48 samples.
const RATE: u32 = 48_000;
const LIMIT: f32 = 1.0;

#[derive(Clone, Copy)]
pub enum Task {
    /// The repair of one gap in the middle, in so many passes of the original.
    Gap {
        len: usize,
        passes: u32,
    },
    /// The repair of as many gaps of this length as a list may have, all as far apart. In the original's place the
    /// library makes single calls.
    List {
        len: usize,
    },
    /// A scan of a recording with dropouts.
    Scan,
    /// A repair over the whole recording. The original does not know decrackle from the mean.
    Whole(Repair),
    /// A proposal for a worn recording, of which no more than its clipped runs are named, or for one that is beyond the
    /// threshold throughout. The original has no such call.
    Proposed {
        throughout: bool,
    },
    /// The flags of a recording that comes in pieces of so many samples, from this start. In the original's place the
    /// host works them out on the whole recording.
    Pieces {
        len: usize,
        start: Start,
    },
    /// The undo of a repair that named all samples but two. The original has none.
    Undo,
    /// The question, so often, of a span of so many samples from the first on, all of which are measured. In the
    /// original's place it is answered by looking at each mark.
    Questions {
        len: usize,
    },
    /// A WAV file of so many samples, read, and written. In the original's place the host's own reader and writer do
    /// it.
    WavRead,
    WavWritten,
    /// Square roots, so many, each on its own or after the one before it. In the original's place another function
    /// takes them.
    Roots {
        of: Numbers,
        how: How,
        beside: fn(f64) -> f64,
    },
}

/// Square roots of numbers, and something of them that shows that they were taken.
pub type How = fn(&[f64], fn(f64) -> f64) -> u64;

/// What square roots are taken of.
#[derive(Clone, Copy)]
pub enum Numbers {
    Doubles,
    /// The pivots of a gap of this length, in n samples.
    Pivots {
        len: usize,
    },
    Subnormals,
}

impl Numbers {
    fn drawn(self, draw: &mut Draw, n: usize) -> Vec<f64> {
        match self {
            Numbers::Doubles => inputs::doubles(draw, ROOTS),
            Numbers::Pivots { len } => inputs::pivots(draw, n, len, ROOTS),
            Numbers::Subnormals => inputs::subnormals(draw, ROOTS),
        }
    }
}

#[derive(Clone, Copy)]
pub struct Times {
    pub original: Option<Duration>,
    pub library: Duration,
}

impl Times {
    /// Of each the lesser.
    pub fn least(self, other: Times) -> Times {
        let original = self.original.into_iter().chain(other.original).min();
        Times { original, library: self.library.min(other.library) }
    }
}

impl Task {
    /// The times of this task on n samples, the least of some runs.
    pub fn times(self, n: usize) -> Times {
        let draw = &mut Draw::new(SEED);
        match self {
            Task::Gap { len, passes } => gap(&inputs::tone(draw, n), Gap { start: (n - len) / 2, len }, passes),
            Task::List { len } => list(&inputs::tone(draw, n), len),
            Task::Scan => scan(&inputs::with_dropouts(draw, n)),
            Task::Whole(repair) => whole(&inputs::worn(draw, n), repair),
            Task::Proposed { throughout } => proposed(&inputs::worn(draw, n), throughout),
            Task::Pieces { len, start } => pieces(&inputs::worn(draw, n), len, start),
            Task::Undo => undo(&inputs::worn(draw, n)),
            Task::Questions { len } => questions(&opened(&vec![0.0; n], 0), len),
            Task::WavRead => wav_read(&inputs::worn(draw, n)),
            Task::WavWritten => wav_written(&inputs::worn(draw, n)),
            Task::Roots { of, how, beside } => roots(&of.drawn(draw, n), how, beside),
        }
    }
}

/// A gap's repair.
fn gap(samples: &[f32], gap: Gap, passes: u32) -> Times {
    let work = vec![0; gap.needed(samples.len())];
    both(
        samples,
        gap.len,
        || original::inpaint_gap(samples, gap.start, gap.len, passes),
        |lent| lent.lend_doubles(&work),
        Call::Gap { gap, passes },
    )
}

/// A list of gaps and single calls, with the workspace that one of them needs. Both have to leave the same of all that
/// is lent, and other samples than they found.
fn list(samples: &[f32], len: usize) -> Times {
    let n = samples.len();
    let stretch = n / MOST_GAPS;
    let starts: Vec<usize> = (0..MOST_GAPS).map(|gap| gap * stretch + stretch / 2).collect();
    let (lens, none) = (vec![len; MOST_GAPS], vec![0; MOST_GAPS]);
    let lists = Lists { starts, lens, numbers: none.clone(), values: vec![0; MOST_GAPS], orders: none };
    let (recording, work) = (opened(samples, n), vec![0; Gap { start: n / 2, len }.needed(n)]);
    least(|| {
        let [mut together, mut singly] = [(); 2].map(|_| {
            let mut lent = Lent::new(&recording);
            lent.lend_doubles(&work);
            lent.lend_gaps(&lists);
            lent
        });
        let (theirs, ()) = timed(|| singly.make_singly(1));
        let (ours, number) = timed(|| together.make(Call::Gaps { passes: 1 }));
        assert_eq!((number, together.not_as_singly(&singly)), (0, vec![]));
        assert!(together.samples() != recording.samples, "the samples are as they were");
        Times { original: Some(theirs), library: ours }
    })
}

/// A scan, with the workspace that the longest of its dropouts needs, and a list for the orders of all samples.
fn scan(samples: &[f32]) -> Times {
    let n = samples.len();
    let (work, orders) = (vec![0; Gap { start: n / 2, len: inputs::DROPOUT }.needed(n)], vec![0; n]);
    both(
        samples,
        n,
        || original::inpaint_auto(samples, RATE, LIMIT),
        |lent| {
            lent.lend_doubles(&work);
            lent.lend_orders(&orders);
        },
        Call::Scan(OfScan::new(RATE, LIMIT)),
    )
}

/// One of the four repairs over the whole recording. Where the original does not know it, the model's own time is no
/// one's.
fn whole(samples: &[f32], repair: Repair) -> Times {
    let work = vec![0; whole::needed(samples.len())];
    let after = || repair.after(samples);
    let times = both(samples, samples.len(), after, |lent| lent.lend_words(&work), Call::Whole(repair));
    Times { original: times.original.filter(|_| repair.is_of_original()), ..times }
}

/// A proposal, which is what the original makes of candidates that are half as loud again. That is made before it.
fn proposed(samples: &[f32], throughout: bool) -> Times {
    let samples: Vec<f32> = samples.iter().map(|x| if throughout { x + 2.0 * CLIP.copysign(*x) } else { *x }).collect();
    let candidates: Vec<f32> = samples.iter().map(|x| 1.5 * x).collect();
    let made = original::project_gamma(&candidates, &samples, CLIP);
    let (proposal, call) = (words(&made), Call::Proposed { threshold: CLIP });
    let times = both(&samples, samples.len(), || made.clone(), |lent| lent.lend_proposal(&proposal), call);
    Times { original: None, ..times }
}

/// The flags in pieces, with room for one piece, and the flags on the whole. Both have to be the same, and some set.
fn pieces(samples: &[f32], len: usize, start: Start) -> Times {
    let words: Vec<u32> = samples.iter().map(|x| x.to_bits()).collect();
    least(|| {
        let (theirs, whole) = timed(|| whole::flags(samples, SENSITIVITY, start));
        let (ours, joined) = timed(|| in_pieces(&words, len, start));
        assert!(joined == whole && whole.contains(&true), "the flags in pieces are not those of the whole");
        Times { original: Some(theirs), library: ours }
    })
}

/// The flags that the library gives of these samples in pieces of this length, joined.
fn in_pieces(words: &[u32], len: usize, start: Start) -> Vec<bool> {
    let (mut state, mut room, mut value) = ([0; STATE_WORDS], vec![0; len + MEAN_OVER], 0);
    let mut joined = Vec::with_capacity(words.len());
    let mut answers = match start {
        Start::Mean => cathar::crackle_begin(words.len(), SENSITIVITY, &mut state),
        Start::Old => cathar::crackle_begin_old_start(words.len(), SENSITIVITY, &mut state),
    };
    for piece in words.chunks(len) {
        answers |= cathar::crackle_piece(&mut state, piece, &mut room, &mut value);
        joined.extend(room[..value].iter().map(|flag| *flag == 1));
    }
    answers |= cathar::crackle_end(&mut state, &mut room, &mut value);
    joined.extend(room[..value].iter().map(|flag| *flag == 1));
    assert_eq!(answers, 0);
    joined
}

/// The undo of a dequantize, which the model makes before it. The raw samples have to come back.
fn undo(samples: &[f32]) -> Times {
    let raw = opened(samples, samples.len());
    let mut recording = raw.clone();
    let repair = Repair::Dequantize { bits: inputs::BITS, strength: 1.0 };
    let answer = whole::repair(&mut recording, repair, &mut vec![0; whole::needed(samples.len())]);
    assert_eq!((answer.number(), answer.value()), (0, samples.len() - 2));
    least(|| {
        let mut lent = Lent::new(&recording);
        let (library, number) = timed(|| lent.make(Call::Undo));
        assert_eq!(number, 0);
        assert!(lent.samples() == raw.samples, "the samples are not the raw ones");
        Times { original: None, library }
    })
}

/// The question, answered in both ways: how often with yes has to be the same, and always.
fn questions(recording: &Recording, len: usize) -> Times {
    let Recording { marks, counts, .. } = recording;
    let by_library = |span: Span| {
        let mut yes = 0;
        let answer = cathar::measured(marks, counts, span.start, span.len, &mut yes);
        answer == 0 && yes == 1
    };
    least(|| {
        let (theirs, looked) = timed(|| asked(len, |span| by_each_mark(marks, span)));
        let (ours, told) = timed(|| asked(len, by_library));
        assert_eq!((looked, told), (QUESTIONS, QUESTIONS));
        Times { original: Some(theirs), library: ours }
    })
}

/// A file of these samples is read in both ways. The samples have to be the same.
fn wav_read(samples: &[f32]) -> Times {
    let values: Vec<i16> = samples.iter().map(|x| wav::value(x.to_bits())).collect();
    let (file, n) = (wav::file(RATE, &values), values.len());
    least(|| {
        let mut theirs = Areas { file: file.clone(), samples: vec![0; n], marks: vec![1; n] };
        let (mut samples, mut marks, mut told, mut rate) = (vec![0; n], vec![1; n], 0, 0);
        let (original, answer) = timed(|| theirs.make(wav::Call::Read));
        let (library, number) = timed(|| cathar::read_wav(&file, &mut samples, &mut marks, &mut told, &mut rate));
        assert_eq!((number, told, rate), (answer.number, answer.value, answer.rate));
        assert!(samples == theirs.samples && marks == theirs.marks, "the samples are not the same");
        Times { original: Some(original), library }
    })
}

/// These samples are written in both ways. The files have to be the same.
fn wav_written(samples: &[f32]) -> Times {
    let (words, bytes) = (words(samples), wav::HEADER + 2 * samples.len());
    least(|| {
        let mut theirs = Areas { file: vec![0; bytes], samples: words.clone(), marks: Vec::new() };
        let (mut out, mut value) = (vec![0; bytes], 0);
        let (original, answer) = timed(|| theirs.make(wav::Call::Write { rate: RATE }));
        let (library, number) = timed(|| cathar::write_wav(&words, RATE, &mut out, &mut value));
        assert_eq!((number, value), (answer.number, answer.value));
        assert!(out == theirs.file, "the files are not the same");
        Times { original: Some(original), library }
    })
}

/// How often a span of this length gets yes. The length is read anew each time, so that each question is worked out.
fn asked(len: usize, is_yes: impl Fn(Span) -> bool) -> u32 {
    // The reference is to a number that lives on.
    let span = || Span { start: 0, len: unsafe { ptr::read_volatile(&len) } };
    (0..QUESTIONS).map(|_| u32::from(is_yes(span()))).sum()
}

/// The square roots of these numbers. All of them have to be the same.
fn roots(numbers: &[f64], how: How, beside: fn(f64) -> f64) -> Times {
    assert!(numbers.iter().all(|x| cathar::sqrt(*x).to_bits() == beside(*x).to_bits()), "the roots are not the same");
    least(|| {
        let (theirs, shown) = timed(|| how(numbers, beside));
        let (ours, same) = timed(|| how(numbers, cathar::sqrt));
        assert_eq!(shown, same);
        Times { original: Some(theirs), library: ours }
    })
}

/// Each root on its own, so that the processor may begin with the next before one is done: the sum of their patterns.
#[inline(never)]
pub fn on_their_own(numbers: &[f64], root: fn(f64) -> f64) -> u64 {
    numbers.iter().fold(0, |sum: u64, x| sum.wrapping_add(root(*x).to_bits()))
}

/// Each root after the one before it, of which 0 times as much is added to its number: the pattern of the last.
#[inline(never)]
pub fn in_turn(numbers: &[f64], root: fn(f64) -> f64) -> u64 {
    numbers.iter().fold(0.0, |last, x| root(x + 0.0 * last)).to_bits()
}

/// Both times of a repair that names at most so many samples. The library is lent a recording and a workspace anew
/// for each run. Both have to leave the same samples, and others than they found.
fn both(
    samples: &[f32],
    named: usize,
    original: impl Fn() -> Vec<f32>,
    lend_work: impl Fn(&mut Lent),
    call: Call,
) -> Times {
    let recording = opened(samples, named);
    least(|| {
        let (theirs, repaired) = timed(&original);
        let mut lent = Lent::new(&recording);
        lend_work(&mut lent);
        let (ours, number) = timed(|| lent.make(call));
        assert_eq!(number, 0);
        assert!(repaired != samples, "the original leaves the samples as they were");
        assert!(words(&repaired) == lent.samples(), "the samples are not the original's");
        Times { original: Some(theirs), library: ours }
    })
}

/// An opened recording of these samples, with a journal for a repair that names so many. (One for all samples is enough
/// for a scan too.)
fn opened(samples: &[f32], named: usize) -> Recording {
    let n = samples.len();
    Recording::new(words(samples), vec![0; n], vec![0; entry_words(named)], 0)
}

/// The samples' words, which tell -0 from +0.
fn words(samples: &[f32]) -> Vec<u32> {
    samples.iter().map(|x| x.to_bits()).collect()
}

/// The least times of several runs, or of one that takes long.
fn least(once: impl Fn() -> Times) -> Times {
    let begun = Instant::now();
    let mut times = once();
    while begun.elapsed() < AT_LEAST {
        times = times.least(once());
    }
    times
}

/// The time of one run, and what it gives.
fn timed<T>(run: impl FnOnce() -> T) -> (Duration, T) {
    let start = thread_time();
    let given = run();
    (thread_time() - start, given)
}
