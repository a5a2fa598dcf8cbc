//! Stand-ins for the counts, in each call on a recording, and for refusal 14. What goes wrong is mostly the same in
//! every call, and is tried in each.
use super::recording::{copy_first, copy_last, open_and, refused_and, where_also};
use super::sequences::{named, taken_back};
use super::How::{Alike, Model};
use super::{Finds, Standin, Table};
use crate::call::Call;
use crate::inpaint::qualified;
use crate::lent::{counts, Lent, GUARDS, VALUE_BEFORE};
use crate::recording::{blocks, counted, is_made, not_measured, Recording, BLOCK, MOST_SAMPLES, NOT_RECEIVED};

/// The stand-ins that one test has to find.
const fn table(file: &'static str, test: &'static str, standins: &'static [Standin]) -> Table {
    Table { file, test, finds: Finds::Always, standins }
}

/// What a repair or an undo that names samples makes of the counts.
macro_rules! of_recounts {
    ($call:literal) => {
        &[
            library!(concat!($call, "_keeps_counts"), "the counts stay", |lent, call| {
                recounting(lent, call, |made| made.before.counts.clone())
            }),
            library!(
                concat!($call, "_counts_first_block"),
                "only the block of the first sample is recounted",
                |lent, call| recounting(lent, call, |made| made.only(made.blocks[0])),
            ),
            library!(
                concat!($call, "_counts_last_block"),
                "only the block of the last sample is recounted",
                |lent, call| { recounting(lent, call, |made| made.only(made.blocks[made.blocks.len() - 1])) }
            ),
            library!(concat!($call, "_counts_all_blocks"), "all blocks are recounted", |lent, call| {
                recounting(lent, call, |made| counted(&made.after.marks))
            }),
            library!(
                concat!($call, "_counts_block_behind"),
                "the block behind the last sample's is recounted too",
                |lent, call| recounting(lent, call, Made::with_block_behind),
            ),
            library!(concat!($call, "_counts_marks_before"), "the marks before the call are counted", |lent, call| {
                recounting(lent, call, |made| made.by(|block| not_measured(block_of(&made.before.marks, block))))
            }),
            library!(concat!($call, "_moves_counts_by_m"), "the counts move by the number of samples", |lent, call| {
                recounting(lent, call, Made::moved_by_m)
            }),
            library!(
                concat!($call, "_moves_counts_by_marks"),
                "the counts move as the marks do, and no block is counted",
                |lent, call| recounting(lent, call, Made::moved_by_marks),
            ),
            library!(concat!($call, "_counts_made_only"), "only the marks of repairs are counted", |lent, call| {
                recounting(lent, call, |made| made.by_marks(is_made))
            }),
            library!(concat!($call, "_counts_without_6"), "mark 6 is not counted", |lent, call| {
                recounting(lent, call, |made| made.by_marks(|mark| mark != 0 && mark != NOT_RECEIVED))
            }),
            library!(concat!($call, "_counts_without_7"), "mark 7 is not counted", |lent, call| {
                recounting(lent, call, |made| made.by_marks(|mark| mark != 0 && mark != 7))
            }),
            library!(concat!($call, "_counts_nan"), "the samples that are NaN are counted", |lent, call| {
                recounting(lent, call, Made::by_nan)
            }),
            library!(concat!($call, "_counts_as_byte"), "a count keeps its last 8 binary digits", |lent, call| {
                recounting(lent, call, |made| made.by(|block| made.right(block) & 0xff))
            }),
            library!(
                concat!($call, "_counts_short_as_whole"),
                "the last short block is taken for a whole one",
                |lent, call| recounting(lent, call, Made::short_as_whole),
            ),
            library!(
                concat!($call, "_counts_all_but_last_mark"),
                "of a whole block the last mark is not counted",
                |lent, call| recounting(lent, call, |made| made
                    .by(|block| made.right(block) - made.last_of_whole(block))),
            ),
            library!(concat!($call, "_counts_blocks_of_255"), "a block has 255 samples", |lent, call| {
                recounting(lent, call, |made| made.by_blocks_of(255))
            }),
            library!(concat!($call, "_counts_blocks_of_257"), "a block has 257 samples", |lent, call| {
                recounting(lent, call, |made| made.by_blocks_of(257))
            }),
            library!(concat!($call, "_writes_count_past_end"), "one count too many is written", writes_past_end),
            library!(concat!($call, "_refused_counts"), "a refusal recounts all blocks", refused_counts),
        ]
    };
}

/// What both openings make of the counts.
macro_rules! of_openings {
    ($call:literal) => {
        &[
            library!(concat!($call, "_keeps_counts"), "the opening leaves the counts", |lent, call| {
                open_and(lent, call, |lent, before| lent.counts.lend().copy_from_slice(&before.counts))
            }),
            library!(concat!($call, "_keeps_first_count"), "the opening leaves the first count", |lent, call| {
                open_and(lent, call, |lent, before| copy_first(lent.counts.lend(), &before.counts))
            }),
            library!(concat!($call, "_keeps_last_count"), "the opening leaves the last count", |lent, call| {
                open_and(lent, call, |lent, before| copy_last(lent.counts.lend(), &before.counts))
            }),
            library!(
                concat!($call, "_counts_marks_before"),
                "the opening counts the marks as they were before",
                |lent, call| open_and(lent, call, |lent, before| lent
                    .counts
                    .lend()
                    .copy_from_slice(&counted(&before.marks))),
            ),
            library!(concat!($call, "_counts_nan"), "the opening counts the samples that are NaN", |lent, call| {
                open_and(lent, call, |lent, before| lent.counts.lend().copy_from_slice(&nan_counted(&before.samples)))
            }),
            library!(
                concat!($call, "_counts_short_as_whole"),
                "the last short block is taken for a whole one",
                |lent, call| open_and(lent, call, |lent, _| counts_short_as_whole(lent)),
            ),
            library!(concat!($call, "_writes_count_past_end"), "one count too many is written", |lent, call| {
                open_and(lent, call, |lent, before| lent.counts.whole[GUARDS + before.counts.len()] = 0)
            }),
            library!(concat!($call, "_writes_count_before"), "a count before the first is written", |lent, call| {
                open_and(lent, call, |lent, _| lent.counts.whole[GUARDS - 1] = 0)
            }),
            library!(
                concat!($call, "_refused_clears_counts"),
                "a refused opening sets the counts to 0",
                |lent, call| refused_and(lent, call, |lent, _| lent.counts.lend().fill(0)),
            ),
        ]
    };
}

/// What the opening that keeps mark 6 makes of the counts.
const OF_RECEIVED: &[Standin] = &[
    library!("received_clears_counts", "the opening sets all counts to 0, also where a mark is 6", |lent, call| {
        open_and(lent, call, |lent, _| lent.counts.lend().fill(0))
    }),
    library!("received_counts_as_byte", "a count keeps its last 8 binary digits", |lent, call| {
        open_and(lent, call, |lent, _| lent.counts.lend().iter_mut().for_each(|count| *count &= 0xff))
    }),
    library!("received_counts_blocks_of_255", "a block has 255 samples", |lent, call| counts_blocks_of(
        lent, call, 255
    )),
    library!("received_counts_blocks_of_257", "a block has 257 samples", |lent, call| counts_blocks_of(
        lent, call, 257
    )),
];

/// When 14 is given, in every call.
macro_rules! of_refusals {
    ($call:literal) => {
        &[
            library!(concat!($call, "_tests_14_after_2"), "14 is tested after 2", |lent, call| {
                where_also(lent, call, 14, 2, |r| r.samples.len() > MOST_SAMPLES)
            }),
            library!(concat!($call, "_tests_14_before_1"), "14 is tested before 1", |lent, call| {
                where_also(lent, call, 1, 14, |r| r.counts.len() != blocks(r.samples.len()))
            }),
            library!(
                concat!($call, "_misses_14_for_more"),
                "14 is not given where there are too many counts",
                |lent, call| taking(lent, call, |has, n| has >= blocks(n)),
            ),
            library!(
                concat!($call, "_misses_14_for_fewer"),
                "14 is not given where there are too few counts",
                |lent, call| taking(lent, call, |has, n| has <= blocks(n)),
            ),
            library!(
                concat!($call, "_14_rounded_down"),
                "as many counts are asked for as there are whole blocks",
                |lent, call| taking(lent, call, |has, n| has == n / BLOCK),
            ),
            library!(
                concat!($call, "_14_one_more"),
                "a count is asked for behind the last whole block, also of none",
                |lent, call| taking(lent, call, |has, n| has == n / BLOCK + 1),
            ),
            library!(
                concat!($call, "_misses_14_of_none"),
                "14 is not given where there are no samples",
                |lent, call| taking(lent, call, |has, n| n == 0 || has == blocks(n)),
            ),
            library!(concat!($call, "_gives_1_for_14"), "1 is answered for 14", |lent, call| {
                where_also(lent, call, 14, 1, |_| true)
            }),
        ]
    };
}

/// When 14 is given, and what it hands back, in a call that hands something back.
macro_rules! of_values {
    ($call:literal) => {
        &[
            library!(concat!($call, "_tests_14_after_3"), "14 is tested after 3", |lent, call| {
                where_also(lent, call, 14, 3, |r| r.samples.len() <= MOST_SAMPLES && r.used > r.journal.len())
            }),
            library!(concat!($call, "_14_without_value"), "on 14 nothing is handed back", |lent, call| {
                on_14(lent, call, |lent| lent.numbers[0].lend()[0] = VALUE_BEFORE)
            }),
            library!(concat!($call, "_14_value_blocks"), "on 14 the number of blocks is handed back", |lent, call| {
                on_14(lent, call, |lent| lent.numbers[0].lend()[0] = 1 + blocks(lent.samples().len()))
            }),
        ]
    };
}

/// What 14 leaves of the workspace.
macro_rules! of_work {
    ($call:literal) => {
        &[library!(concat!($call, "_14_clears_work"), "on 14 the workspace is cleared", |lent, call| {
            on_14(lent, call, |lent| {
                lent.doubles.lend().fill(0.0);
                lent.words.lend().fill(0);
            })
        })]
    };
}

/// What a call makes of mark 8, which one repair alone sets.
macro_rules! of_mark_8 {
    ($call:literal) => {
        &[library!(concat!($call, "_counts_without_8"), "mark 8 is not counted", |lent, call| {
            recounting(lent, call, |made| made.by_marks(|mark| mark != 0 && mark != 8))
        })]
    };
}

/// What a repair that names no sample makes of the counts.
macro_rules! of_naming_none {
    ($call:literal) => {
        &[library!(
            concat!($call, "_of_none_counts"),
            "a repair that names nothing recounts all blocks",
            |lent, call| {
                let used = lent.used.lent()[0];
                let number = lent.call(call);
                if number == 0 && lent.used.lent()[0] == used {
                    let all = counted(lent.marks.lent());
                    lent.counts.lend().copy_from_slice(&all);
                }
                number
            },
        )]
    };
}

/// What a scan does of its own.
const OF_SCANS: &[Standin] = &[
    library!("scan_14_in_each_run", "14 is tested in each run, and the runs are counted", scan_14_in_each_run),
    library!("scan_counts_first_run", "only the blocks of the first run are recounted", |lent, call| {
        let before = lent.recording();
        let number = lent.call(call);
        let (after, second) = (lent.recording(), lent.numbers[1].lent()[0] > 1);
        if let (true, Some(first)) = (second, named(&before, &after).first()) {
            let block = after.journal[*first] as usize / BLOCK;
            lent.counts.lend()[block + 1..].copy_from_slice(&before.counts[block + 1..]);
        }
        number
    }),
];

pub(super) const TABLES: &[Table] = &[
    table("recording", "opens", of_openings!("open")),
    table("recording", "opens", of_refusals!("open")),
    table("recording", "opens_received", of_openings!("received")),
    table("recording", "opens_received", of_refusals!("received")),
    table("recording", "opens_received", OF_RECEIVED),
    table("recording", "undos", of_recounts!("undo")),
    table("recording", "undos", of_refusals!("undo")),
    table("recording", "undos", of_values!("undo")),
    table("recording", "undos", of_mark_8!("undo")),
    table("inpaint", "repairs", of_recounts!("gap")),
    table("inpaint", "repairs", of_refusals!("gap")),
    table("inpaint", "repairs", of_values!("gap")),
    table("inpaint", "repairs", of_work!("gap")),
    table("inpaint", "scanned", of_recounts!("scan")),
    table("inpaint", "scanned", of_refusals!("scan")),
    table("inpaint", "scanned", of_values!("scan")),
    table("inpaint", "scanned", of_work!("scan")),
    table("inpaint", "scanned", OF_SCANS),
    table("inpaint", "several_gaps", of_recounts!("several")),
    table("whole", "declips", of_recounts!("declip")),
    table("whole", "declips", of_refusals!("declip")),
    table("whole", "declips", of_values!("declip")),
    table("whole", "declips", of_work!("declip")),
    table("whole", "declips", of_naming_none!("declip")),
    table("whole", "decrackles", of_recounts!("decrackle")),
    table("whole", "decrackles", of_refusals!("decrackle")),
    table("whole", "decrackles", of_values!("decrackle")),
    table("whole", "decrackles", of_work!("decrackle")),
    table("whole", "decrackles", of_naming_none!("decrackle")),
    table("whole", "decrackles_old_start", of_recounts!("decrackle_old")),
    table("whole", "decrackles_old_start", of_refusals!("decrackle_old")),
    table("whole", "decrackles_old_start", of_values!("decrackle_old")),
    table("whole", "decrackles_old_start", of_work!("decrackle_old")),
    table("whole", "decrackles_old_start", of_naming_none!("decrackle_old")),
    table("whole", "dequantizes", of_recounts!("dequantize")),
    table("whole", "dequantizes", of_refusals!("dequantize")),
    table("whole", "dequantizes", of_values!("dequantize")),
    table("whole", "dequantizes", of_work!("dequantize")),
    table("whole", "dequantizes", of_naming_none!("dequantize")),
    table("whole", "cosparse", of_recounts!("cosparse")),
    table("whole", "cosparse", of_refusals!("cosparse")),
    table("whole", "cosparse", of_values!("cosparse")),
    table("whole", "cosparse", of_work!("cosparse")),
    table("whole", "cosparse", of_naming_none!("cosparse")),
    table("proposed", "proposals", of_recounts!("proposed")),
    table("proposed", "proposals", of_refusals!("proposed")),
    table("proposed", "proposals", of_values!("proposed")),
    table("proposed", "proposals", of_naming_none!("proposed")),
    table("proposed", "proposals", of_mark_8!("proposed")),
    table("sequences", "all_calls", OF_SEQUENCES),
];

/// In sequences of calls: for the model, for the library where the counts before the call are right, and for both alike,
/// which only the marks tell.
const OF_SEQUENCES: &[Standin] = &[
    Standin {
        name: "seq_model_open_keeps_counts",
        says: "the model's opening leaves the counts",
        how: Model(open_keeps_counts),
    },
    Standin {
        name: "seq_model_undo_keeps_counts",
        says: "the model's undo leaves the counts",
        how: Model(undo_keeps_counts),
    },
    Standin {
        name: "seq_model_repair_keeps_counts",
        says: "the model's repairs leave the counts",
        how: Model(repair_keeps_counts),
    },
    library!(
        "seq_repair_moves_counts_by_m",
        "a repair raises the counts by the samples that it names",
        |lent, call| {
            recounting(
                lent,
                call,
                |made| if made.call == Call::Undo { made.after.counts.clone() } else { made.moved_by_m() },
            )
        }
    ),
    library!(
        "seq_undo_moves_counts_by_m",
        "an undo lowers the counts by the samples that it takes back",
        |lent, call| {
            recounting(
                lent,
                call,
                |made| if made.call == Call::Undo { made.moved_by_m() } else { made.after.counts.clone() },
            )
        },
    ),
    library!("seq_counts_without_6", "repairs and undo do not count mark 6", |lent, call| {
        recounting(lent, call, |made| made.by_marks(|mark| mark != 0 && mark != NOT_RECEIVED))
    }),
    Standin { name: "seq_both_open_keeps_counts", says: "openings leave the counts", how: Alike(open_keeps_counts) },
    Standin {
        name: "seq_both_open_clears_counts",
        says: "openings set all counts to 0",
        how: Alike(open_clears_counts),
    },
    Standin { name: "seq_both_undo_keeps_counts", says: "undo leaves the counts", how: Alike(undo_keeps_counts) },
    Standin { name: "seq_both_repair_keeps_counts", says: "repairs leave the counts", how: Alike(repair_keeps_counts) },
    Standin {
        name: "seq_both_repair_counts_first_block",
        says: "a repair recounts only the block of its first sample",
        how: Alike(repair_counts_first_block),
    },
];

/// A call that named or took back samples, with the recording before and after it.
struct Made {
    call: Call,
    before: Recording,
    after: Recording,
    /// The places of the samples, and their blocks, each once, ascending.
    places: Vec<usize>,
    blocks: Vec<usize>,
    /// The marks with what stands behind them.
    marks_on: Vec<u8>,
}

impl Made {
    /// The counts before, but those of the blocks, which are as this counts them.
    fn by(&self, count: impl Fn(usize) -> u16) -> Vec<u16> {
        let mut counts = self.before.counts.clone();
        self.blocks.iter().for_each(|block| counts[*block] = count(*block));
        counts
    }

    /// The count that a block is to have.
    fn right(&self, block: usize) -> u16 {
        not_measured(block_of(&self.after.marks, block))
    }

    /// The counts before, but that of one block.
    fn only(&self, one: usize) -> Vec<u16> {
        self.by(|block| if block == one { self.right(block) } else { self.before.counts[block] })
    }

    /// Counted are the marks that are so.
    fn by_marks(&self, so: fn(u8) -> bool) -> Vec<u16> {
        self.by(|block| block_of(&self.after.marks, block).iter().filter(|mark| so(**mark)).count() as u16)
    }

    fn by_nan(&self) -> Vec<u16> {
        let all = nan_counted(&self.after.samples);
        self.by(|block| all[block])
    }

    fn with_block_behind(&self) -> Vec<u16> {
        let mut counts = self.after.counts.clone();
        let behind = self.blocks[self.blocks.len() - 1] + 1;
        counts.iter_mut().skip(behind).take(1).for_each(|count| *count = self.right(behind));
        counts
    }

    /// An undo lowers the counts by one for each sample, and a repair raises them.
    fn moved_by_m(&self) -> Vec<u16> {
        let of = |block| self.places.iter().filter(|place| **place / BLOCK == block).count() as u16;
        self.by(|block| match self.call {
            Call::Undo => self.before.counts[block].wrapping_sub(of(block)),
            _ => self.before.counts[block].wrapping_add(of(block)),
        })
    }

    fn moved_by_marks(&self) -> Vec<u16> {
        let had = |block| not_measured(block_of(&self.before.marks, block));
        self.by(|block| self.before.counts[block].wrapping_add(self.right(block)).wrapping_sub(had(block)))
    }

    fn short_as_whole(&self) -> Vec<u16> {
        self.by(|block| not_measured(block_of(&self.marks_on, block)))
    }

    /// 1 where the block is a whole one whose last mark is not 0.
    fn last_of_whole(&self, block: usize) -> u16 {
        u16::from(block_of(&self.after.marks, block).get(BLOCK - 1).map_or(false, |mark| *mark != 0))
    }

    /// The blocks have another size.
    fn by_blocks_of(&self, size: usize) -> Vec<u16> {
        let mut counts = self.before.counts.clone();
        let all: Vec<u16> = self.after.marks.chunks(size).map(not_measured).collect();
        for block in self.places.iter().map(|place| place / size) {
            counts.iter_mut().skip(block).take(1).for_each(|count| *count = all[block]);
        }
        counts
    }
}

/// The marks of a block.
fn block_of(marks: &[u8], block: usize) -> &[u8] {
    marks.chunks(BLOCK).nth(block).expect("the block is there")
}

/// The counts where the samples that are NaN count.
fn nan_counted(samples: &[u32]) -> Vec<u16> {
    let nan: Vec<u8> = samples.iter().map(|word| f32::from_bits(*word).is_nan().into()).collect();
    counted(&nan)
}

/// The places of the samples that a call named or took back.
fn places(call: Call, before: &Recording, after: &Recording) -> Vec<usize> {
    match call {
        Call::Open | Call::OpenReceived => Vec::new(),
        Call::Undo => taken_back(call, before, after),
        _ => named(before, after).into_iter().map(|at| after.journal[at] as usize).collect(),
    }
}

/// Their blocks, each once, ascending.
fn blocks_of(places: &[usize]) -> Vec<usize> {
    let mut blocks: Vec<usize> = places.iter().map(|place| place / BLOCK).collect();
    blocks.sort_unstable();
    blocks.dedup();
    blocks
}

/// The library makes the call. Where it named or took back samples, the counts become what this makes of them.
fn recounting(lent: &mut Lent, call: Call, makes: impl Fn(&Made) -> Vec<u16>) -> u32 {
    let before = lent.recording();
    let number = lent.call(call);
    let after = lent.recording();
    let places = places(call, &before, &after);
    if !places.is_empty() {
        let (blocks, marks_on) = (blocks_of(&places), lent.marks.whole[GUARDS..].to_vec());
        let made = Made { call, before, after, places, blocks, marks_on };
        lent.counts.lend().copy_from_slice(&makes(&made));
    }
    number
}

fn writes_past_end(lent: &mut Lent, call: Call) -> u32 {
    let used = lent.used.lent()[0];
    let number = lent.call(call);
    if lent.used.lent()[0] != used {
        let end = GUARDS + lent.counts.lent().len();
        lent.counts.whole[end] = 0;
    }
    number
}

fn refused_counts(lent: &mut Lent, call: Call) -> u32 {
    refused_and(lent, call, |lent, before| {
        let all = counted(&before.marks);
        if all.len() == before.counts.len() && lent.used.lent()[0] == before.used {
            lent.counts.lend().copy_from_slice(&all);
        }
    })
}

fn counts_short_as_whole(lent: &mut Lent) {
    let all: Vec<u16> = lent.marks.whole[GUARDS..].chunks(BLOCK).map(not_measured).collect();
    lent.counts.lend().iter_mut().zip(all).for_each(|(count, of)| *count = of);
}

fn counts_blocks_of(lent: &mut Lent, call: Call, size: usize) -> u32 {
    open_and(lent, call, |lent, _| {
        let all: Vec<u16> = lent.marks.lent().chunks(size).map(not_measured).collect();
        lent.counts.lend().iter_mut().zip(all).for_each(|(count, of)| *count = of);
    })
}

/// The library is lent so many counts instead: the first of them, and any more are 0. Those that it is lent here become
/// as it leaves them.
fn lending(lent: &mut Lent, call: Call, many: usize) -> u32 {
    let had = lent.counts.lent().to_vec();
    let mut other = had.clone();
    other.resize(many, 0);
    lent.counts = counts(&other);
    let number = lent.call(call);
    let left: Vec<u16> = lent.counts.lent().iter().chain(had.iter().skip(many)).take(had.len()).copied().collect();
    lent.counts = counts(&left);
    number
}

/// The call answers 14, and hands back 0 in each of its numbers and, of a gap, for the order.
fn refuse(lent: &mut Lent, call: Call) -> u32 {
    if let Call::Gap { .. } = call {
        lent.order.lend()[0] = 0;
    }
    let numbers = match call {
        Call::Open | Call::OpenReceived => 0,
        Call::Scan(_) => 2,
        _ => 1,
    };
    lent.numbers.iter_mut().take(numbers).for_each(|number| number.lend()[0] = 0);
    14
}

/// 14 is given where this does not take so many counts for so many samples.
fn taking(lent: &mut Lent, call: Call, takes: fn(usize, usize) -> bool) -> u32 {
    let (has, n) = (lent.counts.lent().len(), lent.samples().len());
    match (takes(has, n), has == blocks(n)) {
        _ if lent.marks.lent().len() != n => lent.call(call),
        (true, false) => lending(lent, call, blocks(n)),
        (false, true) => refuse(lent, call),
        _ => lent.call(call),
    }
}

/// The library makes the call; where it answers 14, this is done.
fn on_14(lent: &mut Lent, call: Call, alters: fn(&mut Lent)) -> u32 {
    let number = lent.call(call);
    if number == 14 {
        alters(lent);
    }
    number
}

fn scan_14_in_each_run(lent: &mut Lent, call: Call) -> u32 {
    let number = lent.call(call);
    let mut right = lent.recording();
    right.counts.resize(blocks(right.samples.len()), 0);
    match (number, call, right.refused_by_any_call()) {
        (14, Call::Scan(_), Some(number)) => number,
        (14, Call::Scan(settings), None) => match qualified(&right.samples, settings) {
            Some(runs) => {
                lent.numbers[0].lend()[0] = runs.len();
                14 * u32::from(!runs.is_empty())
            }
            None => 4,
        },
        _ => number,
    }
}

pub(super) fn open_keeps_counts(call: Call, before: &Recording, after: &mut Recording) {
    if call.opens() {
        after.counts = before.counts.clone();
    }
}

pub(super) fn open_clears_counts(call: Call, _: &Recording, after: &mut Recording) {
    if call.opens() {
        after.counts.fill(0);
    }
}

pub(super) fn undo_keeps_counts(call: Call, before: &Recording, after: &mut Recording) {
    if call == Call::Undo {
        after.counts = before.counts.clone();
    }
}

pub(super) fn repair_keeps_counts(call: Call, before: &Recording, after: &mut Recording) {
    if call != Call::Undo && !call.opens() {
        after.counts = before.counts.clone();
    }
}

pub(super) fn repair_counts_first_block(call: Call, before: &Recording, after: &mut Recording) {
    if call != Call::Undo && !call.opens() {
        for block in blocks_of(&places(call, before, after)).into_iter().skip(1) {
            after.counts[block] = before.counts[block];
        }
    }
}
