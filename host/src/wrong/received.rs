//! Stand-ins for the opening that keeps which samples were not received.
use super::recording::{
    copy_first, copy_last, keeps_words_from, limit_one_lower, open_and, quiet, refused_and, tests_2_before_1,
};
use super::How::Library;
use super::{Finds, Standin, Table};
use crate::call::Call;
use crate::cathar;
use crate::lent::{Lent, GUARDS};
use crate::recording::{Recording, MOST_SAMPLES, NOT_RECEIVED};

pub(super) const TABLES: &[Table] =
    &[Table { file: "recording", test: "opens_received", finds: Finds::Always, standins: OPENINGS }];

const OPENINGS: &[Standin] = &[
    Standin {
        name: "received_loses_6",
        says: "the opening sets every mark to 0, as the other one does",
        how: Library(|lent, _| lent.call(Call::Open)),
    },
    Standin {
        name: "received_loses_6_of_numbers",
        says: "the opening keeps mark 6 only where the sample is a NaN",
        how: Library(|lent, call| each_mark(lent, call, |word, old| if is_nan(word) { raw(old) } else { 0 })),
    },
    Standin {
        name: "received_loses_6_of_other_nan",
        says: "the opening keeps mark 6 only where the sample is 7FC00000",
        how: Library(|lent, call| each_mark(lent, call, |word, old| if word == 0x7fc0_0000 { raw(old) } else { 0 })),
    },
    Standin {
        name: "received_loses_first_6",
        says: "the opening sets the first mark to 0, whatever it is",
        how: Library(|lent, call| open_and(lent, call, |lent, _| copy_first(lent.marks.lend(), &[0]))),
    },
    Standin {
        name: "received_marks_nan_6",
        says: "the opening marks every NaN as not received",
        how: Library(|lent, call| {
            each_mark(lent, call, |word, old| if is_nan(word) { NOT_RECEIVED } else { raw(old) })
        }),
    },
    Standin {
        name: "received_keeps_every_mark",
        says: "the opening keeps every mark",
        how: Library(|lent, call| each_mark(lent, call, |_, old| old)),
    },
    Standin {
        name: "received_keeps_first_mark",
        says: "the opening keeps the first mark",
        how: Library(|lent, call| open_and(lent, call, |lent, before| copy_first(lent.marks.lend(), &before.marks))),
    },
    Standin {
        name: "received_keeps_last_mark",
        says: "the opening keeps the last mark",
        how: Library(|lent, call| open_and(lent, call, |lent, before| copy_last(lent.marks.lend(), &before.marks))),
    },
    Standin {
        name: "received_keeps_marks_of_repairs",
        says: "the opening keeps the marks 1 to 5 too",
        how: Library(|lent, call| each_mark(lent, call, |_, old| if old <= NOT_RECEIVED { old } else { 0 })),
    },
    Standin {
        name: "received_keeps_7",
        says: "the opening keeps mark 7 too",
        how: Library(|lent, call| each_mark(lent, call, |_, old| if old == 7 { old } else { raw(old) })),
    },
    Standin {
        name: "received_reads_three_digits",
        says: "of a mark the opening reads the last three binary digits: 14 becomes 6",
        how: Library(|lent, call| each_mark(lent, call, |_, old| raw(old & 7))),
    },
    Standin {
        name: "received_marks_all_others_6",
        says: "the opening sets every mark but 0 to 6",
        how: Library(|lent, call| each_mark(lent, call, |_, old| if old == 0 { 0 } else { NOT_RECEIVED })),
    },
    Standin {
        name: "received_sets_word_of_6",
        says: "the opening writes 7FC00000 where the mark is 6",
        how: Library(sets_word_of_6),
    },
    Standin {
        name: "received_quiets_nan",
        says: "the opening writes the samples back by way of a float: a signalling NaN becomes quiet",
        how: Library(|lent, call| open_and(lent, call, |lent, _| lent.samples.lend().iter_mut().for_each(quiet))),
    },
    Standin {
        name: "received_clears_byte_past_marks",
        says: "the opening clears one mark too many, at the end",
        how: Library(|lent, call| {
            open_and(lent, call, |lent, before| lent.marks.whole[GUARDS + before.marks.len()] = 0)
        }),
    },
    Standin {
        name: "received_keeps_journal",
        says: "the opening leaves the journal words as they are",
        how: Library(|lent, call| open_and(lent, call, |lent, before| keeps_words_from(lent, before, 0))),
    },
    Standin {
        name: "received_keeps_free_words",
        says: "the opening clears the used journal words only",
        how: Library(|lent, call| open_and(lent, call, |lent, before| keeps_words_from(lent, before, before.used))),
    },
    Standin {
        name: "received_clears_most_samples_words",
        says: "the opening clears the first 1,048,576 journal words only",
        how: Library(|lent, call| open_and(lent, call, |lent, before| keeps_words_from(lent, before, MOST_SAMPLES))),
    },
    Standin {
        name: "received_keeps_used",
        says: "the opening leaves used as it is",
        how: Library(|lent, call| open_and(lent, call, |lent, before| lent.used.lend()[0] = before.used)),
    },
    Standin { name: "received_tests_2_before_1", says: "the opening tests 2 before 1", how: Library(tests_2_before_1) },
    Standin {
        name: "received_misses_1_for_more_marks",
        says: "the opening does not give 1 where there are more marks than samples",
        how: Library(misses_1_for_more_marks),
    },
    Standin {
        name: "received_limit_one_lower",
        says: "the opening gives 2 for 1,048,576 samples already",
        how: Library(limit_one_lower),
    },
    Standin {
        name: "received_gives_12",
        says: "the opening gives 12 where it is to give 2",
        how: Library(|lent, call| if lent.call(call) == 2 { 12 } else { lent.call(call) }),
    },
    Standin {
        name: "received_refused_clears_marks",
        says: "a refused opening clears the marks that are not 6",
        how: Library(|lent, call| {
            refused_and(lent, call, |lent, _| lent.marks.lend().iter_mut().for_each(|mark| *mark = raw(*mark)))
        }),
    },
    Standin {
        name: "received_refused_clears_used",
        says: "a refused opening sets used to 0",
        how: Library(|lent, call| refused_and(lent, call, |lent, _| lent.used.lend()[0] = 0)),
    },
];

/// What a mark is to become.
fn raw(mark: u8) -> u8 {
    u8::from(mark == NOT_RECEIVED) * NOT_RECEIVED
}

/// Whether a word is the pattern of a NaN.
fn is_nan(word: u32) -> bool {
    f32::from_bits(word).is_nan()
}

/// The library opens, and each mark becomes what this makes of the sample and the mark that it had.
fn each_mark(lent: &mut Lent, call: Call, becomes: fn(u32, u8) -> u8) -> u32 {
    open_and(lent, call, |lent, before| {
        let had = before.samples.iter().zip(&before.marks);
        let marks = had.map(|(word, mark)| becomes(*word, *mark)).collect::<Vec<u8>>();
        lent.marks.lend().copy_from_slice(&marks);
    })
}

fn sets_word_of_6(lent: &mut Lent, call: Call) -> u32 {
    open_and(lent, call, |lent, before: &Recording| {
        for (word, mark) in lent.samples.lend().iter_mut().zip(&before.marks) {
            *word = if *mark == NOT_RECEIVED { 0x7fc0_0000 } else { *word };
        }
    })
}

fn misses_1_for_more_marks(lent: &mut Lent, _: Call) -> u32 {
    let (samples, marks, counts) = (lent.samples.lent(), lent.marks.lend(), lent.counts.lend());
    let same = samples.len().min(marks.len());
    cathar::open_received(samples, &mut marks[..same], counts, lent.journal.lend(), &mut lent.used.lend()[0])
}
