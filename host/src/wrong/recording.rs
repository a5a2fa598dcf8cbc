//! Stand-ins for opening and for undo.
use super::How::Library;
use super::{Finds, Standin, Table};
use crate::call::Call;
use crate::cathar;
use crate::lent::{Lent, GUARDS, VALUE_BEFORE};
use crate::recording::{blocks, entry_words, in_range, is_made, not_measured, Recording, BLOCK, MOST_SAMPLES};

pub(super) const TABLES: &[Table] = &[
    Table { file: "recording", test: "opens", finds: Finds::Always, standins: OPENINGS },
    Table { file: "recording", test: "undos", finds: Finds::Always, standins: UNDOS },
    Table { file: "recording", test: "undos", finds: Finds::Always, standins: UNDO_REFUSALS },
    Table { file: "recording", test: "undos", finds: Finds::Never, standins: RIGHT_UNDOS },
];

const OPENINGS: &[Standin] = &[
    Standin {
        name: "open_keeps_marks",
        says: "opening leaves the marks as they are",
        how: Library(|lent, call| {
            open_and(lent, call, |lent, before| lent.marks.lend().copy_from_slice(&before.marks))
        }),
    },
    Standin {
        name: "open_keeps_first_mark",
        says: "opening leaves the first mark",
        how: Library(|lent, call| open_and(lent, call, |lent, before| copy_first(lent.marks.lend(), &before.marks))),
    },
    Standin {
        name: "open_keeps_last_mark",
        says: "opening leaves the last mark: it clears one too few",
        how: Library(|lent, call| open_and(lent, call, |lent, before| copy_last(lent.marks.lend(), &before.marks))),
    },
    Standin {
        name: "open_clears_byte_past_marks",
        says: "opening clears one mark too many, at the end",
        how: Library(|lent, call| {
            open_and(lent, call, |lent, before| lent.marks.whole[GUARDS + before.marks.len()] = 0)
        }),
    },
    Standin {
        name: "open_clears_byte_before_marks",
        says: "opening clears one mark too many, before the first",
        how: Library(|lent, call| open_and(lent, call, |lent, _| lent.marks.whole[GUARDS - 1] = 0)),
    },
    Standin {
        name: "open_keeps_journal",
        says: "opening leaves the journal words as they are",
        how: Library(|lent, call| {
            open_and(lent, call, |lent, before| lent.journal.lend().copy_from_slice(&before.journal))
        }),
    },
    Standin {
        name: "open_keeps_first_word",
        says: "opening leaves the first journal word",
        how: Library(|lent, call| {
            open_and(lent, call, |lent, before| copy_first(lent.journal.lend(), &before.journal))
        }),
    },
    Standin {
        name: "open_keeps_last_word",
        says: "opening leaves the last journal word",
        how: Library(|lent, call| open_and(lent, call, |lent, before| copy_last(lent.journal.lend(), &before.journal))),
    },
    Standin {
        name: "open_keeps_free_words",
        says: "opening clears the used journal words only",
        how: Library(|lent, call| open_and(lent, call, |lent, before| keeps_words_from(lent, before, before.used))),
    },
    Standin {
        name: "open_clears_65536_words",
        says: "opening clears the first 65,536 journal words only",
        how: Library(|lent, call| open_and(lent, call, |lent, before| keeps_words_from(lent, before, 65_536))),
    },
    Standin {
        name: "open_clears_most_samples_words",
        says: "opening clears the first 1,048,576 journal words only",
        how: Library(|lent, call| open_and(lent, call, |lent, before| keeps_words_from(lent, before, MOST_SAMPLES))),
    },
    Standin {
        name: "open_clears_word_past_journal",
        says: "opening clears one journal word too many",
        how: Library(|lent, call| {
            open_and(lent, call, |lent, before| lent.journal.whole[GUARDS + before.journal.len()] = 0)
        }),
    },
    Standin {
        name: "open_keeps_used",
        says: "opening leaves used as it is",
        how: Library(|lent, call| open_and(lent, call, |lent, before| lent.used.lend()[0] = before.used)),
    },
    Standin {
        name: "open_keeps_used_without_journal",
        says: "opening leaves used as it is where the journal has no words",
        how: Library(open_keeps_used_without_journal),
    },
    Standin {
        name: "open_fills_used",
        says: "opening sets used to the journal's length",
        how: Library(|lent, call| open_and(lent, call, |lent, before| lent.used.lend()[0] = before.journal.len())),
    },
    Standin {
        name: "open_quiets_nan",
        says: "opening writes the samples back by way of a float: a signalling NaN becomes quiet",
        how: Library(|lent, call| open_and(lent, call, |lent, _| lent.samples.lend().iter_mut().for_each(quiet))),
    },
    Standin {
        name: "open_clears_samples_out_of_range",
        says: "opening sets samples that are not in range to 0",
        how: Library(open_clears_samples_out_of_range),
    },
    Standin { name: "open_tests_2_before_1", says: "opening tests 2 before 1", how: Library(tests_2_before_1) },
    Standin {
        name: "open_misses_1_for_more_marks",
        says: "opening does not give 1 where there are more marks than samples",
        how: Library(open_misses_1_for_more_marks),
    },
    Standin {
        name: "open_misses_1_for_fewer_marks",
        says: "opening does not give 1 where there are fewer marks than samples",
        how: Library(open_misses_1_for_fewer_marks),
    },
    Standin {
        name: "open_limit_one_lower",
        says: "opening gives 2 for 1,048,576 samples already",
        how: Library(limit_one_lower),
    },
    Standin {
        name: "open_limit_one_higher",
        says: "opening does not give 2 for 1,048,577 samples",
        how: Library(open_limit_one_higher),
    },
    Standin {
        name: "open_gives_3",
        says: "opening gives 3 where used exceeds the journal's length",
        how: Library(open_gives_3),
    },
    Standin {
        name: "open_answers_samples",
        says: "opening returns the number of samples when accepted",
        how: Library(open_answers_samples),
    },
    Standin {
        name: "open_refused_clears_marks",
        says: "a refused opening sets the marks to 0",
        how: Library(|lent, call| refused_and(lent, call, |lent, _| lent.marks.lend().fill(0))),
    },
    Standin {
        name: "open_refused_clears_journal",
        says: "a refused opening sets the journal words to 0",
        how: Library(|lent, call| refused_and(lent, call, |lent, _| lent.journal.lend().fill(0))),
    },
    Standin {
        name: "open_refused_clears_used",
        says: "a refused opening sets used to 0",
        how: Library(|lent, call| refused_and(lent, call, |lent, _| lent.used.lend()[0] = 0)),
    },
];

/// What an accepted undo leaves and answers.
const UNDOS: &[Standin] = &[
    Standin {
        name: "undo_keeps_marks",
        says: "undo gives back the words and not the marks",
        how: Library(|lent, _| undo_and(lent, |lent, before, _| lent.marks.lend().copy_from_slice(&before.marks))),
    },
    Standin {
        name: "undo_keeps_words",
        says: "undo gives back the marks and not the words",
        how: Library(|lent, _| undo_and(lent, |lent, before, _| lent.samples.lend().copy_from_slice(&before.samples))),
    },
    Standin {
        name: "undo_marks_measured",
        says: "undo sets the marks to 0 instead of giving back the old ones",
        how: Library(|lent, _| undo_and_each(lent, |_, mark| *mark = 0)),
    },
    Standin {
        name: "undo_cuts_old_mark",
        says: "undo gives back the last three binary digits of an old mark",
        how: Library(|lent, _| undo_and_each(lent, |_, mark| *mark &= 7)),
    },
    Standin {
        name: "undo_quiets_nan",
        says: "undo gives back the words by way of a float: a signalling NaN becomes quiet",
        how: Library(|lent, _| undo_and_each(lent, |word, _| quiet(word))),
    },
    Standin {
        name: "undo_misses_first",
        says: "undo does not give back the first sample of an entry",
        how: Library(|lent, _| undo_misses(lent, |entry| entry.first().copied())),
    },
    Standin {
        name: "undo_misses_last",
        says: "undo does not give back the last sample of an entry",
        how: Library(|lent, _| undo_misses(lent, |entry| entry.last().copied())),
    },
    Standin {
        name: "undo_takes_two_entries",
        says: "undo takes back the entry before the last one too",
        how: Library(undo_takes_two_entries),
    },
    Standin {
        name: "undo_used_falls_by_one_less",
        says: "used falls by 3m+1",
        how: Library(|lent, _| undo_and(lent, |lent, _, _| lent.used.lend()[0] += 1)),
    },
    Standin {
        name: "undo_used_falls_by_one_more",
        says: "used falls by 3m+3",
        how: Library(undo_used_falls_by_one_more),
    },
    Standin {
        name: "undo_keeps_used",
        says: "used does not fall",
        how: Library(|lent, _| undo_and(lent, |lent, before, _| lent.used.lend()[0] = before.used)),
    },
    Standin {
        name: "undo_keeps_journal",
        says: "the freed journal words stay as they are",
        how: Library(|lent, _| undo_and(lent, |lent, before, _| lent.journal.lend().copy_from_slice(&before.journal))),
    },
    Standin {
        name: "undo_keeps_m_and_mark",
        says: "of the freed journal words m and the set mark stay",
        how: Library(undo_keeps_m_and_mark),
    },
    Standin {
        name: "undo_clears_m_and_mark_only",
        says: "of the freed journal words only m and the set mark become 0",
        how: Library(undo_clears_m_and_mark_only),
    },
    Standin {
        name: "undo_clears_word_past_used",
        says: "the word after the freed journal words becomes 0 too",
        how: Library(|lent, _| undo_and(lent, |lent, before, _| lent.journal.whole[GUARDS + before.used] = 0)),
    },
    Standin {
        name: "undo_clears_word_before_entry",
        says: "the word before the freed journal words becomes 0 too",
        how: Library(undo_clears_word_before_entry),
    },
    Standin {
        name: "undo_clears_free_words",
        says: "the journal words that were free before become 0 too",
        how: Library(|lent, _| undo_and(lent, |lent, before, _| lent.journal.lend()[before.used..].fill(0))),
    },
    Standin {
        name: "undo_value_one_more",
        says: "an accepted undo returns m+1",
        how: Library(|lent, _| undo_and(lent, |lent, _, m| set_value(lent, m + 1))),
    },
    Standin {
        name: "undo_value_words",
        says: "an accepted undo returns 3m+2",
        how: Library(|lent, _| undo_and(lent, |lent, _, m| set_value(lent, entry_words(m)))),
    },
    Standin {
        name: "undo_value_used",
        says: "an accepted undo returns used",
        how: Library(|lent, _| undo_and(lent, |lent, before, m| set_value(lent, before.used - entry_words(m)))),
    },
    Standin {
        name: "undo_value_0",
        says: "an accepted undo returns 0",
        how: Library(|lent, _| undo_and(lent, |lent, _, _| set_value(lent, 0))),
    },
    Standin {
        name: "undo_value_not_written",
        says: "an accepted undo does not write what it returns",
        how: Library(|lent, _| undo_and(lent, |lent, _, _| set_value(lent, VALUE_BEFORE))),
    },
];

/// What undo turns away, and what a refused one leaves and answers.
const UNDO_REFUSALS: &[Standin] = &[
    Standin { name: "undo_tests_2_before_1", says: "undo tests 2 before 1", how: Library(tests_2_before_1) },
    Standin {
        name: "undo_tests_3_before_1",
        says: "undo tests 3 before 1",
        how: Library(|lent, call| where_also(lent, call, 1, 3, |r| r.used > r.journal.len())),
    },
    Standin {
        name: "undo_tests_3_before_2",
        says: "undo tests 3 before 2",
        how: Library(|lent, call| where_also(lent, call, 2, 3, |r| r.used > r.journal.len())),
    },
    Standin {
        name: "undo_tests_10_before_1",
        says: "undo tests 10 before 1",
        how: Library(|lent, call| where_also(lent, call, 1, 10, |r| r.used == 0)),
    },
    Standin {
        name: "undo_tests_11_before_1",
        says: "undo tests 11 before 1",
        how: Library(|lent, call| where_also(lent, call, 1, 11, |r| !r.malformed().is_empty())),
    },
    Standin {
        name: "undo_misses_1_for_more_marks",
        says: "undo does not give 1 where there are more marks than samples",
        how: Library(undo_misses_1_for_more_marks),
    },
    Standin {
        name: "undo_misses_1_for_fewer_marks",
        says: "undo does not give 1 where there are fewer marks than samples",
        how: Library(undo_misses_1_for_fewer_marks),
    },
    Standin {
        name: "undo_limit_one_lower",
        says: "undo gives 2 for 1,048,576 samples already",
        how: Library(limit_one_lower),
    },
    Standin {
        name: "undo_limit_one_higher",
        says: "undo does not give 2 for 1,048,577 samples",
        how: Library(|lent, _| undo_by(lent, Rules { most_samples: MOST_SAMPLES + 1, ..RULES })),
    },
    Standin {
        name: "undo_misses_3_one_past",
        says: "undo does not give 3 where used exceeds the journal's length by one",
        how: Library(undo_misses_3_one_past),
    },
    Standin {
        name: "undo_reads_used_as_32_bits",
        says: "of used undo reads the last 32 binary digits",
        how: Library(undo_reads_used_as_32_bits),
    },
    Standin {
        name: "undo_gives_3_for_full_journal",
        says: "undo gives 3 where used is the journal's length",
        how: Library(undo_gives_3_for_full_journal),
    },
    Standin {
        name: "undo_gives_11_for_10",
        says: "undo gives 11 where used is 0",
        how: Library(|lent, call| where_also(lent, call, 10, 11, |_| true)),
    },
    Standin {
        name: "undo_gives_10_for_used_1",
        says: "undo gives 10 where used is 1",
        how: Library(|lent, call| where_also(lent, call, 11, 10, |r| r.used == 1)),
    },
    Standin {
        name: "undo_takes_used_1",
        says: "undo accepts used 1, and frees the one word",
        how: Library(undo_takes_used_1),
    },
    Standin {
        name: "undo_allows_m_0",
        says: "m 0 is allowed",
        how: Library(|lent, _| undo_by(lent, Rules { m: |m, n| m <= n, ..RULES })),
    },
    Standin {
        name: "undo_refuses_m_1",
        says: "m 1 is malformed too",
        how: Library(|lent, _| undo_by(lent, Rules { m: |m, n| m > 1 && m <= n, ..RULES })),
    },
    Standin {
        name: "undo_refuses_m_n",
        says: "m is malformed where it is the number of samples",
        how: Library(|lent, _| undo_by(lent, Rules { m: |m, n| m > 0 && m < n, ..RULES })),
    },
    Standin {
        name: "undo_reads_m_as_16_bits",
        says: "of m the last 16 binary digits are read",
        how: Library(|lent, _| undo_of(lent, |r| r.journal[r.used - 2] &= 0xffff)),
    },
    Standin {
        name: "undo_reads_m_signed",
        says: "m is read as a number with a sign, and one below 0 is allowed",
        how: Library(|lent, _| {
            let words = |m: u32| (3 * i64::from(m as i32) + 2).max(0) as usize;
            undo_by(lent, Rules { m: |m, n| m > 0 && m as u32 as i32 <= n as i32, words, ..RULES })
        }),
    },
    Standin {
        name: "undo_allows_one_word_over_used",
        says: "3m+2 may exceed used by one, and the word before the journal is read",
        how: Library(|lent, _| undo_by(lent, Rules { fits: |words, used| words <= used + 1, ..RULES })),
    },
    Standin {
        name: "undo_refuses_entry_of_all_used",
        says: "an entry is malformed where 3m+2 is used",
        how: Library(|lent, _| undo_by(lent, Rules { fits: |words, used| words < used, ..RULES })),
    },
    Standin {
        name: "undo_wraps_words",
        says: "3m+2 is computed in 32 bits, where it wraps, and m is not held to the samples",
        how: Library(|lent, _| {
            let words = |m: u32| m.wrapping_mul(3).wrapping_add(2) as usize;
            undo_by(lent, Rules { m: |m, _| m > 0, words, ..RULES })
        }),
    },
    Standin {
        name: "undo_allows_place_n",
        says: "a place may be the number of samples, and what stands after the samples is written",
        how: Library(|lent, _| undo_by(lent, Rules { place: |place, n| place <= n, ..RULES })),
    },
    Standin {
        name: "undo_refuses_last_place",
        says: "the last sample's place is malformed",
        how: Library(|lent, _| undo_by(lent, Rules { place: |place, n| place + 1 < n, ..RULES })),
    },
    Standin {
        name: "undo_refuses_place_0",
        says: "the place 0 is malformed",
        how: Library(|lent, _| undo_by(lent, Rules { place: |place, n| place > 0 && place < n, ..RULES })),
    },
    Standin {
        name: "undo_reads_places_as_16_bits",
        says: "of a place the last 16 binary digits are read",
        how: Library(undo_reads_places_as_16_bits),
    },
    Standin {
        name: "undo_allows_equal_places",
        says: "a place may be the same as the one before",
        how: Library(|lent, _| undo_by(lent, Rules { rise: |one, next| one <= next, ..RULES })),
    },
    Standin {
        name: "undo_allows_falling_places",
        says: "a place may be below the one before",
        how: Library(|lent, _| undo_by(lent, Rules { rise: |one, next| one != next, ..RULES })),
    },
    Standin {
        name: "undo_refuses_neighbours",
        says: "places have to rise by two or more",
        how: Library(|lent, _| undo_by(lent, Rules { rise: |one, next| next > one && next - one > 1, ..RULES })),
    },
    Standin {
        name: "undo_allows_old_mark_256",
        says: "an old mark may be 256",
        how: Library(|lent, _| undo_by(lent, Rules { old_mark: |mark| mark <= 256, ..RULES })),
    },
    Standin {
        name: "undo_refuses_old_mark_255",
        says: "an old mark 255 is malformed",
        how: Library(|lent, _| undo_by(lent, Rules { old_mark: |mark| mark < 255, ..RULES })),
    },
    Standin {
        name: "undo_refuses_old_mark_6",
        says: "an old mark has to be 0 to 5",
        how: Library(|lent, _| undo_by(lent, Rules { old_mark: |mark| mark <= 5, ..RULES })),
    },
    Standin {
        name: "undo_refuses_old_mark_7",
        says: "an old mark has to be 0 to 6",
        how: Library(|lent, _| undo_by(lent, Rules { old_mark: |mark| mark <= 6, ..RULES })),
    },
    Standin {
        name: "undo_refuses_old_mark_8",
        says: "an old mark has to be 0 to 7",
        how: Library(|lent, _| undo_by(lent, Rules { old_mark: |mark| mark <= 7, ..RULES })),
    },
    Standin {
        name: "undo_reads_old_mark_as_byte",
        says: "an old mark of any size is read as a byte",
        how: Library(|lent, _| undo_by(lent, Rules { old_mark: |_| true, ..RULES })),
    },
    Standin {
        name: "undo_tests_first_old_mark_only",
        says: "only the first old mark is held to 255",
        how: Library(undo_tests_first_old_mark_only),
    },
    Standin {
        name: "undo_allows_set_mark_0",
        says: "the set mark may be 0",
        how: Library(|lent, _| undo_by(lent, Rules { set_mark: |mark| matches!(mark, 0..=5 | 7..=8), ..RULES })),
    },
    Standin {
        name: "undo_allows_set_mark_6",
        says: "the set mark may be 6",
        how: Library(|lent, _| undo_by(lent, Rules { set_mark: |mark| matches!(mark, 1..=8), ..RULES })),
    },
    Standin {
        name: "undo_allows_set_mark_9",
        says: "the set mark may be 9",
        how: Library(|lent, _| undo_by(lent, Rules { set_mark: |mark| matches!(mark, 1..=5 | 7..=9), ..RULES })),
    },
    Standin {
        name: "undo_allows_set_mark_from_7",
        says: "the set mark may be 7 and any above it",
        how: Library(|lent, _| undo_by(lent, Rules { set_mark: |mark| matches!(mark, 1..=5 | 7..), ..RULES })),
    },
    Standin {
        name: "undo_refuses_set_mark_7",
        says: "the set mark 7 is malformed",
        how: Library(|lent, _| undo_by(lent, Rules { set_mark: |mark| matches!(mark, 1..=5 | 8), ..RULES })),
    },
    Standin {
        name: "undo_refuses_set_mark_8",
        says: "the set mark 8 is malformed",
        how: Library(|lent, _| undo_by(lent, Rules { set_mark: |mark| matches!(mark, 1..=5 | 7), ..RULES })),
    },
    Standin {
        name: "undo_takes_set_mark_9_for_8",
        says: "the set mark may be 9, and 8 is malformed",
        how: Library(|lent, _| undo_by(lent, Rules { set_mark: |mark| matches!(mark, 1..=5 | 7 | 9), ..RULES })),
    },
    Standin {
        name: "undo_takes_set_mark_6_for_7",
        says: "the set mark may be 6, and 7 is malformed",
        how: Library(|lent, _| undo_by(lent, Rules { set_mark: |mark| matches!(mark, 1..=6 | 8), ..RULES })),
    },
    Standin {
        name: "undo_refuses_set_mark_5",
        says: "the set mark 5 is malformed",
        how: Library(|lent, _| undo_by(lent, Rules { set_mark: |mark| matches!(mark, 1..=4 | 7..=8), ..RULES })),
    },
    Standin {
        name: "undo_refuses_set_mark_4",
        says: "the set mark 4 is malformed",
        how: Library(|lent, _| undo_by(lent, Rules { set_mark: |mark| matches!(mark, 1..=3 | 5 | 7..=8), ..RULES })),
    },
    Standin {
        name: "undo_refuses_set_mark_1",
        says: "the set mark 1 is malformed",
        how: Library(|lent, _| undo_by(lent, Rules { set_mark: |mark| matches!(mark, 2..=5 | 7..=8), ..RULES })),
    },
    Standin {
        name: "undo_reads_set_mark_as_byte",
        says: "a set mark of any size is read as a byte",
        how: Library(|lent, _| undo_by(lent, Rules { set_mark: |mark| is_made(mark as u8), ..RULES })),
    },
    Standin {
        name: "undo_reads_set_mark_as_digits",
        says: "of a set mark the last four binary digits are read",
        how: Library(|lent, _| undo_by(lent, Rules { set_mark: |mark| is_made(mark as u8 & 15), ..RULES })),
    },
    Standin {
        name: "undo_from_journal_end",
        says: "the last entry is looked for at the journal's end and not where used says",
        how: Library(|lent, _| undo_of(lent, |r| r.used = r.journal.len())),
    },
    Standin {
        name: "undo_refused_clears_mark",
        says: "a refused undo sets the first mark to 0",
        how: Library(|lent, call| {
            refused_and(lent, call, |lent, _| lent.marks.lend().iter_mut().take(1).for_each(clear))
        }),
    },
    Standin {
        name: "undo_gives_back_while_it_tests",
        says: "undo gives back the samples before the malformed one, and then gives 11",
        how: Library(undo_gives_back_while_it_tests),
    },
    Standin {
        name: "undo_refused_clears_entry",
        says: "an undo that gives 11 sets m to 0",
        how: Library(undo_refused_clears_entry),
    },
    Standin {
        name: "undo_refused_value_m",
        says: "a refused undo returns the m of the last entry",
        how: Library(undo_refused_value_m),
    },
    Standin {
        name: "undo_refused_value_not_written",
        says: "a refused undo does not write the value 0",
        how: Library(|lent, call| refused_and(lent, call, |lent, _| set_value(lent, VALUE_BEFORE))),
    },
];

/// More samples than there are cannot be named: their places would not all be below the samples and rise.
const RIGHT_UNDOS: &[Standin] = &[Standin {
    name: "undo_without_m_over_n",
    says: "undo does not test whether m is more than the samples, which follows from the other clauses",
    how: Library(|lent, _| undo_by(lent, Rules { m: |m, _| m > 0, ..RULES })),
}];

/// The library opens by this call; where it accepts, its work is altered. The recording before it is told.
pub(super) fn open_and(lent: &mut Lent, call: Call, alter: impl FnOnce(&mut Lent, &Recording)) -> u32 {
    let before = lent.recording();
    let number = lent.call(call);
    if number == 0 {
        alter(lent, &before);
    }
    number
}

/// The library undoes; where it accepts, its work is altered. The recording before it and m are told.
fn undo_and(lent: &mut Lent, alter: impl FnOnce(&mut Lent, &Recording, usize)) -> u32 {
    let before = lent.recording();
    let number = lent.call(Call::Undo);
    if number == 0 {
        let m = lent.numbers[0].lent()[0];
        alter(lent, &before, m);
    }
    number
}

/// The library undoes, and then the word and the mark of each sample that it took back are altered.
fn undo_and_each(lent: &mut Lent, alter: impl Fn(&mut u32, &mut u8)) -> u32 {
    undo_and(lent, |lent, before, _| {
        for [place, ..] in last_entry(before) {
            alter(&mut lent.samples.lend()[place as usize], &mut lent.marks.lend()[place as usize]);
        }
    })
}

/// The library undoes, but for one sample of the entry, which stays as it was.
fn undo_misses(lent: &mut Lent, which: impl Fn(&[[u32; 3]]) -> Option<[u32; 3]>) -> u32 {
    undo_and(lent, |lent, before, _| {
        if let Some([place, ..]) = which(&last_entry(before)) {
            lent.samples.lend()[place as usize] = before.samples[place as usize];
            lent.marks.lend()[place as usize] = before.marks[place as usize];
        }
    })
}

/// The library makes the call; where it refuses, its work is altered. The recording before it is told.
pub(super) fn refused_and(lent: &mut Lent, call: Call, alter: impl FnOnce(&mut Lent, &Recording)) -> u32 {
    let before = lent.recording();
    let number = lent.call(call);
    if number != 0 {
        alter(lent, &before);
    }
    number
}

/// The library makes the call. Where it gives the one number and the other applies too, that is given.
pub(super) fn where_also(
    lent: &mut Lent,
    call: Call,
    one: u32,
    other: u32,
    applies: impl Fn(&Recording) -> bool,
) -> u32 {
    let number = lent.call(call);
    if number == one && applies(&lent.recording()) {
        other
    } else {
        number
    }
}

/// The library undoes on a recording that is altered before, where used is at least 2 and within the journal. Where
/// it refuses, the recording is as before.
fn undo_of(lent: &mut Lent, alter: impl FnOnce(&mut Recording)) -> u32 {
    let before = lent.recording();
    if (2..=before.journal.len()).contains(&before.used) {
        let mut altered = before.clone();
        alter(&mut altered);
        lent.put(&altered);
    }
    let number = lent.call(Call::Undo);
    if number != 0 {
        lent.put(&before);
    }
    number
}

/// The place, old word and old mark of each sample of the last entry; nothing, where it is not there whole.
fn last_entry(of: &Recording) -> Vec<[u32; 3]> {
    last_entry_start(of).map_or(Vec::new(), |start| threes(&of.journal[start..of.used - 2]))
}

/// Where the last entry starts, if it is there whole.
fn last_entry_start(of: &Recording) -> Option<usize> {
    let m = of.used.checked_sub(2).and_then(|at| of.journal.get(at))?;
    if of.used > of.journal.len() {
        return None;
    }
    of.used.checked_sub(entry_words(*m as usize))
}

/// The words, three by three.
fn threes(words: &[u32]) -> Vec<[u32; 3]> {
    words.chunks_exact(3).map(|three| [three[0], three[1], three[2]]).collect()
}

/// The first is copied, if there is one.
pub(super) fn copy_first<T: Copy>(to: &mut [T], from: &[T]) {
    to.iter_mut().zip(from).take(1).for_each(|(to, from)| *to = *from);
}

/// The last is copied, if there is one.
pub(super) fn copy_last<T: Copy>(to: &mut [T], from: &[T]) {
    to.iter_mut().zip(from).rev().take(1).for_each(|(to, from)| *to = *from);
}

/// A mark becomes 0.
fn clear(mark: &mut u8) {
    *mark = 0;
}

/// A word that is the pattern of a NaN becomes that of a quiet one.
pub(super) fn quiet(word: &mut u32) {
    if f32::from_bits(*word).is_nan() {
        *word |= 0x0040_0000;
    }
}

/// Undo hands back this value.
fn set_value(lent: &mut Lent, value: usize) {
    lent.numbers[0].lend()[0] = value;
}

/// The blocks of these places are counted anew, as far as there are such.
fn recount(lent: &mut Lent, places: impl Iterator<Item = usize>) {
    let (marks, counts) = (lent.marks.lent(), lent.counts.lend());
    for block in places.map(|place| place / BLOCK) {
        if let (Some(count), Some(marks)) = (counts.get_mut(block), marks.chunks(BLOCK).nth(block)) {
            *count = not_measured(marks);
        }
    }
}

/// What undo allows.
struct Rules {
    most_samples: usize,
    /// m, and the number of samples.
    m: fn(usize, usize) -> bool,
    /// How many words an entry of this m has.
    words: fn(u32) -> usize,
    /// The entry's words, and used.
    fits: fn(usize, usize) -> bool,
    /// A place, and the number of samples.
    place: fn(usize, usize) -> bool,
    /// A place, and the next.
    rise: fn(u32, u32) -> bool,
    old_mark: fn(u32) -> bool,
    set_mark: fn(u32) -> bool,
}

/// What it is to allow.
const RULES: Rules = Rules {
    most_samples: MOST_SAMPLES,
    m: |m, n| m > 0 && m <= n,
    words: |m| entry_words(m as usize),
    fits: |words, used| words <= used,
    place: |place, n| place < n,
    rise: |one, next| one < next,
    old_mark: |mark| mark <= 255,
    set_mark: |mark| matches!(mark, 1..=5 | 7..=8),
};

/// An undo written by hand, by these rules. Where they allow too much, it reads and writes what stands around the
/// lent parts.
fn undo_by(lent: &mut Lent, rules: Rules) -> u32 {
    set_value(lent, 0);
    let (n, used) = (lent.samples.lent().len(), lent.used.lent()[0]);
    let outside = [
        (1, lent.marks.lent().len() != n),
        (14, lent.counts.lent().len() != blocks(n)),
        (2, n > rules.most_samples),
        (3, used > lent.journal.lent().len()),
        (10, used == 0),
        (11, used == 1),
    ];
    if let Some((number, _)) = outside.into_iter().find(|(_, applies)| *applies) {
        return number;
    }
    let (m, set_mark) = (lent.journal.lent()[used - 2], lent.journal.lent()[used - 1]);
    let words = (rules.words)(m);
    if !(rules.m)(m as usize, n) || !(rules.fits)(words, used) || !(rules.set_mark)(set_mark) {
        return 11;
    }
    let (start, end) = (GUARDS + used - words, GUARDS + used);
    let entry = threes(lent.journal.whole.get(start..end - 2).unwrap_or(&[]));
    let places_and_marks = |[place, _, mark]: &[u32; 3]| (rules.place)(*place as usize, n) && (rules.old_mark)(*mark);
    if !entry.iter().all(places_and_marks) || !entry.windows(2).all(|two| (rules.rise)(two[0][0], two[1][0])) {
        return 11;
    }
    for [place, word, mark] in &entry {
        lent.samples.whole[GUARDS + *place as usize] = *word;
        lent.marks.whole[GUARDS + *place as usize] = *mark as u8;
    }
    recount(lent, entry.iter().map(|[place, ..]| *place as usize));
    lent.journal.whole[start..end].fill(0);
    lent.used.lend()[0] = used.saturating_sub(words);
    set_value(lent, m as usize);
    0
}

/// The journal words from this one on are as before.
pub(super) fn keeps_words_from(lent: &mut Lent, before: &Recording, from: usize) {
    let from = from.min(before.journal.len());
    lent.journal.lend()[from..].copy_from_slice(&before.journal[from..]);
}

fn open_keeps_used_without_journal(lent: &mut Lent, call: Call) -> u32 {
    open_and(lent, call, |lent, before| {
        if before.journal.is_empty() {
            lent.used.lend()[0] = before.used;
        }
    })
}

fn open_clears_samples_out_of_range(lent: &mut Lent, call: Call) -> u32 {
    open_and(lent, call, |lent, _| {
        for word in lent.samples.lend().iter_mut().filter(|word| !in_range(**word)) {
            *word = 0;
        }
    })
}

pub(super) fn tests_2_before_1(lent: &mut Lent, call: Call) -> u32 {
    where_also(lent, call, 1, 2, |r| r.samples.len() > MOST_SAMPLES)
}

fn open_misses_1_for_more_marks(lent: &mut Lent, _: Call) -> u32 {
    let (samples, marks, counts) = (lent.samples.lent(), lent.marks.lend(), lent.counts.lend());
    let same = samples.len().min(marks.len());
    cathar::open(samples, &mut marks[..same], counts, lent.journal.lend(), &mut lent.used.lend()[0])
}

fn open_misses_1_for_fewer_marks(lent: &mut Lent, _: Call) -> u32 {
    let (samples, marks, counts) = (lent.samples.lent(), lent.marks.lend(), lent.counts.lend());
    let same = samples.len().min(marks.len());
    cathar::open(&samples[..same], marks, counts, lent.journal.lend(), &mut lent.used.lend()[0])
}

pub(super) fn limit_one_lower(lent: &mut Lent, call: Call) -> u32 {
    let before = lent.recording();
    let number = lent.call(call);
    if before.samples.len() == MOST_SAMPLES && ![1, 14].contains(&number) {
        lent.put(&before);
        set_value(lent, if call.opens() { VALUE_BEFORE } else { 0 });
        return 2;
    }
    number
}

fn open_limit_one_higher(lent: &mut Lent, call: Call) -> u32 {
    let number = lent.call(call);
    if number == 2 && lent.samples.lent().len() == MOST_SAMPLES + 1 {
        lent.marks.lend().fill(0);
        lent.counts.lend().fill(0);
        lent.journal.lend().fill(0);
        lent.used.lend()[0] = 0;
        return 0;
    }
    number
}

fn open_gives_3(lent: &mut Lent, call: Call) -> u32 {
    let before = lent.recording();
    let number = lent.call(call);
    if number == 0 && before.used > before.journal.len() {
        lent.put(&before);
        return 3;
    }
    number
}

fn open_answers_samples(lent: &mut Lent, call: Call) -> u32 {
    match lent.call(call) {
        0 => lent.samples.lent().len() as u32,
        number => number,
    }
}

fn undo_takes_two_entries(lent: &mut Lent, _: Call) -> u32 {
    undo_and(lent, |lent, _, m| {
        lent.call(Call::Undo);
        set_value(lent, m);
    })
}

fn undo_used_falls_by_one_more(lent: &mut Lent, _: Call) -> u32 {
    undo_and(lent, |lent, _, _| {
        let used = &mut lent.used.lend()[0];
        *used = used.wrapping_sub(1);
    })
}

fn undo_keeps_m_and_mark(lent: &mut Lent, _: Call) -> u32 {
    undo_and(lent, |lent, before, _| {
        let last = before.used - 2..before.used;
        lent.journal.lend()[last.clone()].copy_from_slice(&before.journal[last]);
    })
}

fn undo_clears_m_and_mark_only(lent: &mut Lent, _: Call) -> u32 {
    undo_and(lent, |lent, before, m| {
        let samples = before.used - entry_words(m)..before.used - 2;
        lent.journal.lend()[samples.clone()].copy_from_slice(&before.journal[samples]);
    })
}

fn undo_clears_word_before_entry(lent: &mut Lent, _: Call) -> u32 {
    undo_and(lent, |lent, before, m| lent.journal.whole[GUARDS + before.used - entry_words(m) - 1] = 0)
}

fn undo_misses_1_for_more_marks(lent: &mut Lent, _: Call) -> u32 {
    let (samples, marks, counts) = (lent.samples.lend(), lent.marks.lend(), lent.counts.lend());
    let same = samples.len().min(marks.len());
    let (journal, used) = (lent.journal.lend(), &mut lent.used.lend()[0]);
    cathar::undo(samples, &mut marks[..same], counts, journal, used, &mut lent.numbers[0].lend()[0])
}

fn undo_misses_1_for_fewer_marks(lent: &mut Lent, _: Call) -> u32 {
    let (samples, marks, counts) = (lent.samples.lend(), lent.marks.lend(), lent.counts.lend());
    let same = samples.len().min(marks.len());
    let (journal, used) = (lent.journal.lend(), &mut lent.used.lend()[0]);
    cathar::undo(&mut samples[..same], marks, counts, journal, used, &mut lent.numbers[0].lend()[0])
}

fn undo_misses_3_one_past(lent: &mut Lent, call: Call) -> u32 {
    let length = lent.journal.lent().len();
    if lent.used.lent()[0] != length + 1 {
        return lent.call(call);
    }
    let journal = &mut lent.journal.whole[GUARDS..GUARDS + length + 1];
    let (used, value) = (&mut lent.used.lend()[0], &mut lent.numbers[0].lend()[0]);
    cathar::undo(lent.samples.lend(), lent.marks.lend(), lent.counts.lend(), journal, used, value)
}

fn undo_reads_used_as_32_bits(lent: &mut Lent, call: Call) -> u32 {
    let used = lent.used.lent()[0];
    lent.used.lend()[0] = used as u32 as usize;
    let number = lent.call(call);
    if number != 0 {
        lent.used.lend()[0] = used;
    }
    number
}

fn undo_gives_3_for_full_journal(lent: &mut Lent, call: Call) -> u32 {
    let before = lent.recording();
    let number = lent.call(call);
    if ![1, 14, 2].contains(&number) && before.used == before.journal.len() {
        lent.put(&before);
        set_value(lent, 0);
        return 3;
    }
    number
}

fn undo_takes_used_1(lent: &mut Lent, call: Call) -> u32 {
    let number = lent.call(call);
    if number == 11 && lent.used.lent()[0] == 1 {
        lent.journal.lend()[0] = 0;
        lent.used.lend()[0] = 0;
        return 0;
    }
    number
}

fn undo_reads_places_as_16_bits(lent: &mut Lent, _: Call) -> u32 {
    undo_of(lent, |r| {
        if let Some(start) = last_entry_start(r) {
            let places = r.journal[start..r.used - 2].iter_mut().step_by(3);
            places.for_each(|place| *place &= 0xffff);
        }
    })
}

fn undo_tests_first_old_mark_only(lent: &mut Lent, _: Call) -> u32 {
    undo_of(lent, |r| {
        if let Some(start) = last_entry_start(r) {
            let marks = r.journal[start..r.used - 2].iter_mut().skip(2).step_by(3);
            marks.skip(1).for_each(|mark| *mark &= 0xff);
        }
    })
}

fn undo_gives_back_while_it_tests(lent: &mut Lent, call: Call) -> u32 {
    refused_and(lent, call, |lent, before| {
        if before.refused_by_any_call().is_some() {
            return;
        }
        let mut least = 0;
        for [place, word, mark] in last_entry(before) {
            if place < least || place as usize >= before.samples.len() || mark > 255 {
                return;
            }
            lent.samples.lend()[place as usize] = word;
            lent.marks.lend()[place as usize] = mark as u8;
            least = place + 1;
        }
    })
}

fn undo_refused_clears_entry(lent: &mut Lent, call: Call) -> u32 {
    let number = lent.call(call);
    let used = lent.used.lent()[0];
    if number == 11 && used > 1 {
        lent.journal.lend()[used - 2] = 0;
    }
    number
}

fn undo_refused_value_m(lent: &mut Lent, call: Call) -> u32 {
    refused_and(lent, call, |lent, before| {
        if let Some(m) = before.used.checked_sub(2).and_then(|at| before.journal.get(at)) {
            set_value(lent, *m as usize);
        }
    })
}
