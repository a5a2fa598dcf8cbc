//! The two openings and undo against the model of the recording: every answer and value, and every byte of the lent
//! memory, with what stands around each part of it.
//!
//! `CATHAR_SEED` sets the seed.
mod recording {
    pub mod built;
    pub mod count;
    pub mod damage;
    pub mod limits;
    pub mod random;
    pub mod short;
}

use cathar_host::call::Call;
use cathar_host::draw::{self, Draw};
use cathar_host::lent::Lent;
use cathar_host::recording::{blocks, counted, entry_words, Answer, Recording, BLOCK, MOST_SAMPLES};
use cathar_host::room;
use recording::built::{build, marks, words, Built};
use recording::count::{Count, Opening};
use recording::damage::Damage;
use recording::{limits, random, short};

/// How many well-formed journals are undone to the raw words, how many are damaged in each way, and how many
/// are made of any words.
const BUILT: u64 = 30_000;
const DAMAGED: u64 = 10_000;
const RANDOM: u64 = 300_000;
/// How many undos there are at least.
const UNDOS: u64 = 1_000_000;

/// The document's *quiet*: its raw words, and its words after the repair.
const QUIET: [u32; 6] = [0x3080_0000, 0x3080_0000, 0, 0, 0x3080_0000, 0x3080_0000];
const QUIET_REPAIRED: [u32; 6] = [0x3080_0000, 0x3080_0000, 0x8000_0000, 0, 0x3080_0000, 0x3080_0000];

/// Both sides undo until the model refuses. That answer is handed back.
fn undo_all(count: &mut Count, mut model: Recording) -> Answer {
    let mut lent = Lent::new(&model);
    loop {
        let answer = count.undo(&mut model, &mut lent);
        if answer.number() != 0 {
            return answer;
        }
    }
}

/// Both sides undo each entry, and the model is then as it was before it; and then once more.
fn undo_built(count: &mut Count, built: Built) {
    let mut model = built.recording;
    let mut lent = Lent::new(&model);
    for before in built.before.iter().rev() {
        count.undo(&mut model, &mut lent);
        assert!(model == *before, "the model's undo is not the way back from its commit");
    }
    assert_eq!(count.undo(&mut model, &mut lent), Answer::Refused(10));
}

fn undo_damaged(count: &mut Count, draw: &mut Draw, damage: Damage) {
    let mut left = DAMAGED;
    while left > 0 {
        let built = build(draw);
        if !built.before.is_empty() {
            let last = undo_all(count, damage.done(draw, &built));
            let is_allowed = [Damage::OldWord, Damage::Counts].contains(&damage);
            assert!(!is_allowed || last == Answer::Refused(10), "any old word and any counts are allowed");
            left -= 1;
        }
    }
}

#[test]
fn undos() {
    let seed = draw::seed();
    let mut draw = Draw::new(seed);
    let mut count = Count::new("cathar_undo against the model", &[0, 1, 14, 2, 3, 10, 11]);
    count.begin("several refusals apply, few samples");
    limits::small(&mut |recording| {
        undo_all(&mut count, recording);
    });
    count.begin("each set mark");
    limits::set_marks(&mut |recording, _| {
        undo_all(&mut count, recording);
    });
    count.begin("beside the most samples");
    limits::large(&mut |recording| {
        undo_all(&mut count, recording);
    });
    assert_eq!(undo_all(&mut count, limits::longest()), Answer::Refused(10));
    count.begin("well-formed, to the raw words and once more");
    for _ in 0..BUILT {
        undo_built(&mut count, build(&mut draw));
    }
    for damage in Damage::ALL {
        count.begin(damage.words());
        undo_damaged(&mut count, &mut draw, damage);
    }
    count.begin("any words");
    for _ in 0..RANDOM {
        undo_all(&mut count, random::recording(&mut draw));
    }
    count.begin("all short journals");
    short::each(&mut |recording| {
        undo_all(&mut count, recording);
    });
    count.close(seed);
    count.close_clauses();
    assert!(count.not_received() >= 10_000, "few undos bring back a mark 6");
    assert!(count.over_blocks() >= 2_000, "few undos are over several blocks");
    assert!(count.wrong_kept() >= 100, "few undos leave a wrong count");
    assert!(count.calls() >= UNDOS, "fewer undos than {UNDOS}");
}

/// Both sides open the recording in this way.
fn open(count: &mut Count, opening: Opening, mut model: Recording) -> Answer {
    let mut lent = Lent::new(&model);
    count.open(opening, &mut model, &mut lent)
}

/// Each number of samples, of marks and of counts beside it and of journal words, and used within the journal and past it.
fn open_any(count: &mut Count, opening: Opening, draw: &mut Draw) {
    for n in [0, 1, 2, 3, 100, 255, 256, 257, 512, 513, 4000usize] {
        for (marks_n, counts_n) in beside(n) {
            for length in [0, 1, 2, 500] {
                for used in [0, 1, length, length + 1, draw.word() as usize, usize::MAX] {
                    let (samples, marks, journal) = (words(draw, n), marks(draw, marks_n), words(draw, length));
                    let counts = room::counts(draw, counts_n);
                    open(count, opening, Recording { samples, marks, counts, journal, used });
                }
            }
        }
    }
}

/// Each number of marks and of counts that is right for so many samples, one more or one less.
fn beside(n: usize) -> impl Iterator<Item = (usize, usize)> {
    let three = |right: usize| [right, right + 1, right.saturating_sub(1)];
    three(n).into_iter().flat_map(move |marks| three(blocks(n)).map(|counts| (marks, counts)))
}

/// Recordings of every size, opened in this way: with every mark, with the longest journal that can be filled and a word
/// more, and beside the most samples.
fn open_all(title: &'static str, opening: Opening) -> Count {
    let seed = draw::seed();
    let mut draw = Draw::new(seed);
    let mut count = Count::new(title, &[0, 1, 14, 2]);
    count.begin("any words");
    for _ in 0..10 {
        open_any(&mut count, opening, &mut draw);
    }
    count.begin("well-formed journals");
    for _ in 0..1000 {
        open(&mut count, opening, build(&mut draw).recording);
    }
    count.begin("every mark, over a NaN, 7FC00000 and 1");
    for mark in 0..=255 {
        let samples = vec![0x7f80_0001, 0x7fc0_0000, 0x3f80_0000];
        open(&mut count, opening, Recording::new(samples, vec![mark; 3], vec![1; 5], 5));
    }
    count.begin("one mark throughout, beside the end of a block");
    for n in [BLOCK - 1, BLOCK, BLOCK + 1, 2 * BLOCK, 2 * BLOCK + 88] {
        for mark in [0, 1, 6, 7] {
            let mut model = Recording::new(vec![0; n], vec![mark; n], vec![1; 5], 5);
            model.counts = room::counts(&mut draw, blocks(n));
            open(&mut count, opening, model);
        }
    }
    count.begin("a journal for the most samples, and a word more");
    open(&mut count, opening, limits::recording(3, [3, 1], &vec![9; entry_words(MOST_SAMPLES) + 1], 7));
    count.begin("beside the most samples");
    for (n, marks, counts, number) in [
        (MOST_SAMPLES, MOST_SAMPLES, 4_096, 0),
        (MOST_SAMPLES, MOST_SAMPLES, 4_095, 14),
        (MOST_SAMPLES, MOST_SAMPLES + 1, 4_096, 1),
        (MOST_SAMPLES, MOST_SAMPLES + 1, 4_097, 1),
        (MOST_SAMPLES + 1, MOST_SAMPLES + 1, 4_097, 2),
        (MOST_SAMPLES + 1, MOST_SAMPLES + 1, 4_096, 14),
        (MOST_SAMPLES + 1, MOST_SAMPLES + 1, 4_098, 14),
        (MOST_SAMPLES + 1, MOST_SAMPLES, 4_097, 1),
        (MOST_SAMPLES + 1, MOST_SAMPLES, 4_096, 1),
    ] {
        let answer = open(&mut count, opening, limits::recording(n, [marks, counts], &[5, 6, 7], usize::MAX));
        assert_eq!(answer.number(), number, "the model opens {n} samples with {marks} marks and {counts} counts");
    }
    count.close(seed);
    count
}

#[test]
fn opens() {
    let count = open_all("cathar_open against the model", (Call::Open, Recording::open));
    assert_eq!(count.not_received(), 0, "openings that leave a mark 6");
}

#[test]
fn opens_received() {
    let title = "cathar_open_received against the model";
    let count = open_all(title, (Call::OpenReceived, Recording::open_received));
    assert!(count.not_received() >= 500, "few openings leave a mark 6");
}

/// *quiet* by the document's figures: the model's journal, and both sides' undo.
#[test]
fn quiet() {
    let opened = Recording::new(QUIET.to_vec(), vec![0; 6], vec![0; 8], 0);
    let mut model = opened.clone();
    assert_eq!(model.commit(1, &[(2, 0x8000_0000), (3, 0)]), Answer::Accepted(2));
    assert_eq!(model.samples, QUIET_REPAIRED);
    assert_eq!(model.marks, [0, 0, 1, 1, 0, 0]);
    assert_eq!(model.counts, [2]);
    assert_eq!(model.journal, [2, 0, 0, 3, 0, 0, 2, 1]);
    assert_eq!(model.used, 8);
    let mut lent = Lent::new(&model);
    assert_eq!((lent.make(Call::Undo), lent.wrong(&opened, 2)), (0, vec![]));
    assert_eq!((lent.make(Call::Undo), lent.wrong(&opened, 0)), (10, vec![]));
    assert_eq!(model.undo(), Answer::Accepted(2));
    assert_eq!(model, opened);
    assert_eq!(model.undo(), Answer::Refused(10));
}

/// Refusal 11 by the set mark alone: 1 to 5 are taken back, by request P7 also 7, by request P9 also 8, and no other:
/// not 0, 6 or 9.
#[test]
fn set_marks() {
    limits::set_marks(&mut |mut model, set| {
        let allowed = [1, 2, 3, 4, 5, 7, 8].contains(&set);
        let (before, mut lent) = (model.clone(), Lent::new(&model));
        let answer = if allowed { Answer::Accepted(1) } else { Answer::Refused(11) };
        assert_eq!(model.undo(), answer, "the model's undo of set mark {set}");
        assert_eq!(model == before, !allowed, "what is left of set mark {set}");
        assert_eq!((lent.make(Call::Undo), lent.wrong(&model, answer.value())), (answer.number(), vec![]), "{set}");
    });
}

/// What the document says of a repair's end, by the model: no room, naming nothing, a word not in range.
#[test]
fn commits() {
    let opened = Recording::new(QUIET.to_vec(), vec![0; 6], vec![0; 7], 0);
    let mut model = opened.clone();
    assert_eq!(model.commit(1, &[(2, 0x8000_0000), (3, 0)]), Answer::Refused(9));
    assert_eq!(model.commit(4, &[]), Answer::Accepted(0));
    // 65,536 is in range; one step above it, an infinity and a NaN are not, and that comes before 9.
    assert_eq!(model.commit(5, &[(0, 0x4780_0000), (1, 0x4780_0001), (4, 0xff80_0000)]), Answer::RefusedAt(8, 1));
    assert_eq!(model.commit(5, &[(0, 0xc780_0000), (5, 0x7fc0_0000)]), Answer::RefusedAt(8, 5));
    assert_eq!(model, opened);
    assert_eq!(model.commit(5, &[(5, 0xc780_0000)]), Answer::Accepted(1));
    assert_eq!(model.journal, [5, 0x3080_0000, 0, 1, 5, 0, 0]);
    assert_eq!(model.commit(2, &[(5, 0)]), Answer::Refused(9));
}

/// What request P5 says of a repair's end and of undo, by the model and by the library's undo: of four blocks, the last
/// of them short, those of the named samples are recounted, and wrong counts of the others stay.
#[test]
fn recounts() {
    let mut marks = vec![0; 3 * BLOCK + 10];
    marks[0..5].fill(6);
    marks[3 * BLOCK..].fill(6);
    let mut model = Recording::new(vec![0; 3 * BLOCK + 10], marks, vec![0; 50], 0);
    assert_eq!(model.counts, [5, 0, 0, 10]);
    assert_eq!(model.commit(3, &[(4, 0), (5, 0), (2 * BLOCK - 1, 0), (3 * BLOCK, 0)]), Answer::Accepted(4));
    assert_eq!(model.counts, [6, 1, 0, 10]);
    model.counts = vec![1_000, 2_000, 3_000, 4_000];
    assert_eq!(model.commit(4, &[]), Answer::Accepted(0));
    assert_eq!(model.commit(4, &[(BLOCK, 0x7fc0_0000)]), Answer::RefusedAt(8, BLOCK));
    assert_eq!(model.counts, [1_000, 2_000, 3_000, 4_000]);
    assert_eq!(model.commit(4, &[(BLOCK, 0), (2 * BLOCK - 1, 0)]), Answer::Accepted(2));
    assert_eq!(model.counts, [1_000, 2, 3_000, 4_000]);
    let mut lent = Lent::new(&model);
    for (m, counts) in [(2, [1_000, 1, 3_000, 4_000]), (4, [5, 0, 3_000, 10])] {
        assert_eq!(model.undo(), Answer::Accepted(m));
        assert_eq!(model.counts, counts);
        assert_eq!((lent.make(Call::Undo), lent.wrong(&model, m)), (0, vec![]));
    }
    assert_eq!(counted(&model.marks), [5, 0, 0, 10]);
}
