//! Stand-ins for the test of sequences: for the model alone, for the library alone where only a sequence shows it, for
//! both alike, and for the test's account.
use super::How::{Account, Alike, Library, Model};
use super::{alter, Alters, Finds, Standin, Table};
use crate::call::Call;
use crate::frames::MISSING_WORD;
use crate::lent::Lent;
use crate::recording::{entry_words, is_made, Recording, NOT_RECEIVED};
use crate::whole::floats;
use std::cell::Cell;

pub(super) const TABLES: &[Table] = &[
    Table { file: "sequences", test: "all_calls", finds: Finds::Always, standins: OF_MODEL },
    Table { file: "sequences", test: "all_calls", finds: Finds::Always, standins: OF_LIBRARY },
    Table { file: "sequences", test: "all_calls", finds: Finds::Always, standins: OF_BOTH_AT_ONCE },
    Table { file: "sequences", test: "all_calls", finds: Finds::Always, standins: OF_BOTH_BY_REPLAY },
    Table { file: "sequences", test: "all_calls", finds: Finds::Always, standins: OF_BOTH_BY_UNDOING_ALL },
    Table { file: "sequences", test: "all_calls", finds: Finds::Always, standins: OF_BOTH_BY_EITHER },
    Table { file: "sequences", test: "all_calls", finds: Finds::Always, standins: OF_ACCOUNT },
];

const OF_MODEL: &[Standin] = &[
    Standin {
        name: "seq_model_undo_keeps_marks",
        says: "the model's undo gives back the words and not the marks",
        how: Model(undo_keeps_marks),
    },
    Standin {
        name: "seq_model_undo_keeps_words",
        says: "the model's undo gives back the marks and not the words",
        how: Model(undo_keeps_words),
    },
    Standin {
        name: "seq_model_undo_keeps_journal",
        says: "the model's undo leaves the freed journal words",
        how: Model(undo_keeps_journal),
    },
    Standin {
        name: "seq_model_undo_keeps_used",
        says: "the model's undo leaves used",
        how: Model(|call, before, after| {
            if call == Call::Undo {
                after.used = before.used;
            }
        }),
    },
    Standin {
        name: "seq_model_undo_marks_measured",
        says: "the model's undo sets marks to 0 instead of giving back the old ones",
        how: Model(undo_marks_measured),
    },
    Standin {
        name: "seq_model_later_only_mark",
        says: "the model's repairs from the second on only mark",
        how: Model(later_only_mark),
    },
    Standin {
        name: "seq_model_last_named_not_marked",
        says: "the model's repairs do not mark the last sample that they name",
        how: Model(|_, before, after| {
            if let Some(place) = named(before, after).last().map(|at| after.journal[*at] as usize) {
                after.marks[place] = before.marks[place];
            }
        }),
    },
    Standin {
        name: "seq_model_entry_has_new_word",
        says: "the model's entries have the new word for the old one",
        how: Model(entry_has_new_word),
    },
    Standin {
        name: "seq_model_entry_has_new_mark",
        says: "the model's entries have the new mark for the old one",
        how: Model(entry_has_new_mark),
    },
    Standin {
        name: "seq_model_scan_enters_first_run",
        says: "the model's scan enters only its first run",
        how: Model(scan_enters_first_run),
    },
    Standin {
        name: "seq_model_open_keeps_last_word",
        says: "the model's opening leaves the last journal word",
        how: Model(|call, before, after| {
            if let (Call::Open, Some(word)) = (call, after.journal.last_mut()) {
                *word = before.journal[before.journal.len() - 1];
            }
        }),
    },
    Standin {
        name: "seq_model_open_keeps_marks",
        says: "the model's opening leaves the marks",
        how: Model(open_keeps_marks),
    },
    Standin {
        name: "seq_model_received_loses_6",
        says: "the model's opening of what was received sets every mark to 0",
        how: Model(received_loses_6),
    },
    Standin {
        name: "seq_model_undo_gives_0_for_6",
        says: "the model's undo gives back 0 for an old mark 6",
        how: Model(undo_gives_0_for_6),
    },
    Standin {
        name: "seq_model_open_keeps_used",
        says: "the model's opening leaves used",
        how: Model(|call, before, after| {
            if call == Call::Open {
                after.used = before.used;
            }
        }),
    },
];

/// These are right on a recording that was just opened.
const OF_LIBRARY: &[Standin] = &[
    Standin {
        name: "seq_made_sample_keeps_mark",
        says: "a repair leaves the mark of a sample that a repair made before",
        how: Library(|lent, call| altered(lent, call, made_sample_keeps_mark)),
    },
    Standin {
        name: "seq_made_sample_keeps_word",
        says: "a repair marks a sample that a repair made before, and leaves its word",
        how: Library(|lent, call| altered(lent, call, made_sample_keeps_word)),
    },
    Standin {
        name: "seq_made_sample_enters_mark_0",
        says: "an entry has 0 for the old mark of a sample that a repair made before",
        how: Library(|lent, call| altered(lent, call, made_sample_enters_mark_0)),
    },
    Standin {
        name: "seq_made_sample_enters_raw_word",
        says: "an entry has the raw word for the old word of a sample that a repair made before",
        how: Library(|lent, call| altered(lent, call, made_sample_enters_raw_word)),
    },
    Standin {
        name: "seq_missing_keeps_6",
        says: "a repair leaves mark 6 on a sample that it names",
        how: Library(|lent, call| altered(lent, call, missing_keeps_6)),
    },
    Standin {
        name: "seq_missing_enters_mark_0",
        says: "an entry has 0 for an old mark 6",
        how: Library(|lent, call| altered(lent, call, missing_enters_mark_0)),
    },
    Standin {
        name: "seq_undo_gives_0_for_6",
        says: "undo gives back 0 for an old mark 6",
        how: Library(|lent, call| altered(lent, call, undo_gives_0_for_6)),
    },
    Standin {
        name: "seq_undo_gives_missing_word",
        says: "undo gives back 7FC00000 for the old word where the old mark is 6",
        how: Library(|lent, call| altered(lent, call, undo_gives_missing_word)),
    },
    Standin {
        name: "seq_undo_refuses_old_mark_6",
        says: "an undo is refused with 11 where an old mark is 6",
        how: Library(undo_refuses_old_mark_6),
    },
    Standin {
        name: "seq_undo_refuses_set_mark_7",
        says: "an undo is refused with 11 where the entry's mark is 7",
        how: Library(undo_refuses_set_mark_7),
    },
    Standin {
        name: "seq_undo_refuses_set_mark_8",
        says: "an undo is refused with 11 where the entry's mark is 8",
        how: Library(undo_refuses_set_mark_8),
    },
    Standin {
        name: "seq_undo_gives_3_for_8",
        says: "undo gives back 3 for an old mark 8",
        how: Library(|lent, call| altered(lent, call, undo_gives_3_for_8)),
    },
    Standin {
        name: "seq_made_by_proposal_enters_mark_3",
        says: "an entry has 3 for an old mark 8",
        how: Library(|lent, call| altered(lent, call, made_by_proposal_enters_mark_3)),
    },
    Standin {
        name: "seq_proposal_refuses_made",
        says: "a proposal is refused by 15 at a sample that a repair made before",
        how: Library(proposal_refuses_made),
    },
    Standin {
        name: "seq_proposal_against_raw",
        says: "a proposal that has other words than an earlier entry's old ones under the threshold is refused",
        how: Library(proposal_against_raw),
    },
    Standin {
        name: "seq_undo_gives_4_for_7",
        says: "undo gives back 4 for an old mark 7",
        how: Library(|lent, call| altered(lent, call, undo_gives_4_for_7)),
    },
    Standin {
        name: "seq_made_by_mean_enters_mark_4",
        says: "an entry has 4 for an old mark 7",
        how: Library(|lent, call| altered(lent, call, made_by_mean_enters_mark_4)),
    },
    Standin {
        name: "seq_whole_refuses_mark_6",
        says: "a repair over the whole recording gives 7 for a sample that is marked 6 and in range",
        how: Library(whole_refuses_mark_6),
    },
    Standin {
        name: "seq_later_entry_at_start",
        says: "where the journal has an entry already, the next is written at the journal's start",
        how: Library(|lent, call| altered(lent, call, later_entry_at_start)),
    },
    Standin {
        name: "seq_later_only_mark",
        says: "repairs from the second on only mark",
        how: Library(|lent, call| altered(lent, call, later_only_mark)),
    },
    Standin {
        name: "seq_later_does_not_fill_journal",
        says: "where the journal has an entry already, one that takes all free words is refused with 9",
        how: Library(later_does_not_fill_journal),
    },
    Standin {
        name: "seq_after_undo_only_mark",
        says: "once something was undone, repairs only mark",
        how: Library(|lent, call| altered(lent, call, after_undo_only_mark)),
    },
    Standin {
        name: "seq_undo_marks_measured",
        says: "undo sets marks to 0, also of a sample that an earlier repair made",
        how: Library(|lent, call| altered(lent, call, undo_marks_measured)),
    },
    Standin {
        name: "seq_undo_gives_raw_word",
        says: "undo gives back the raw word, also of a sample that an earlier repair made",
        how: Library(|lent, call| altered(lent, call, undo_gives_raw_word)),
    },
    Standin {
        name: "seq_undo_keeps_journal_with_entries",
        says: "undo leaves the freed journal words where an entry is left",
        how: Library(|lent, call| altered(lent, call, undo_keeps_journal_with_entries)),
    },
];

/// On both sides, and to be found after a call by what has to hold whatever the model says.
const OF_BOTH_AT_ONCE: &[Standin] = &[
    Standin {
        name: "seq_both_changed_not_marked",
        says: "a repair leaves a sample that it changes marked as measured",
        how: Alike(changed_not_marked),
    },
    Standin {
        name: "seq_both_measured_changed",
        says: "a repair changes a measured sample that it does not name",
        how: Alike(measured_changed),
    },
    Standin {
        name: "seq_both_entry_has_new_word",
        says: "entries have the new word for the old one",
        how: Alike(entry_has_new_word),
    },
    Standin {
        name: "seq_both_entry_has_place_before",
        says: "entries have for each place the one before it",
        how: Alike(entry_has_place_before),
    },
    Standin {
        name: "seq_both_entry_a_place_too_few",
        says: "entries lack the last sample that is named",
        how: Alike(entry_a_place_too_few),
    },
    Standin {
        name: "seq_both_used_not_raised",
        says: "repairs do not raise used",
        how: Alike(|_, before, after| after.used = after.used.min(before.used)),
    },
    Standin {
        name: "seq_both_undo_marks_measured",
        says: "undo sets marks to 0 instead of giving back the old ones",
        how: Alike(undo_marks_measured),
    },
    Standin {
        name: "seq_both_undo_keeps_words",
        says: "undo gives back the marks and not the words",
        how: Alike(undo_keeps_words),
    },
    Standin {
        name: "seq_both_refused_gap_changes_mark",
        says: "the repair of a gap changes the first mark where it is refused",
        how: Alike(refused_gap_changes_mark),
    },
    Standin {
        name: "seq_both_refused_undo_changes_mark",
        says: "an undo with used 0 changes the first mark",
        how: Alike(refused_undo_changes_mark),
    },
    Standin {
        name: "seq_both_naming_none_enters",
        says: "a repair that names nothing appends an entry",
        how: Alike(naming_none_enters),
    },
    Standin {
        name: "seq_both_scan_enters_first_run",
        says: "a scan enters only its first run",
        how: Alike(scan_enters_first_run),
    },
    Standin {
        name: "seq_both_scan_enters_runs_reversed",
        says: "a scan enters its last run first",
        how: Alike(scan_enters_runs_reversed),
    },
    Standin { name: "seq_both_repair_sets_6", says: "a repair sets mark 6", how: Alike(repair_sets_6) },
    Standin {
        name: "seq_both_decrackle_sets_4",
        says: "decrackle sets mark 4, from the new start too",
        how: Alike(|_, before, after| sets_for(before, after, [4, 7])),
    },
    Standin {
        name: "seq_both_old_start_sets_7",
        says: "decrackle sets mark 7, from the old start too",
        how: Alike(|_, before, after| sets_for(before, after, [7, 4])),
    },
    Standin {
        name: "seq_both_decrackle_marks_4",
        says: "decrackle from the new start marks its samples 4, and enters 7",
        how: Alike(|_, before, after| marks_for(before, after, [4, 7])),
    },
    Standin {
        name: "seq_both_decrackle_enters_4",
        says: "decrackle from the new start marks its samples 7, and enters 4",
        how: Alike(|_, before, after| enters_for(before, after, [4, 7])),
    },
    Standin {
        name: "seq_both_proposal_sets_3",
        says: "declip by a proposal sets mark 3",
        how: Alike(|_, before, after| sets_for(before, after, [3, 8])),
    },
    Standin {
        name: "seq_both_declip_sets_8",
        says: "cubic declip sets mark 8",
        how: Alike(|_, before, after| sets_for(before, after, [8, 3])),
    },
    Standin {
        name: "seq_both_proposal_marks_3",
        says: "declip by a proposal marks its samples 3, and enters 8",
        how: Alike(|_, before, after| marks_for(before, after, [3, 8])),
    },
    Standin {
        name: "seq_both_proposal_enters_3",
        says: "declip by a proposal marks its samples 8, and enters 3",
        how: Alike(|_, before, after| enters_for(before, after, [3, 8])),
    },
    Standin {
        name: "seq_both_refused_proposal_changes_mark",
        says: "a proposal changes the first mark where it is refused or names nothing",
        how: Alike(refused_proposal_changes_mark),
    },
    Standin {
        name: "seq_both_proposal_changes_under",
        says: "a proposal changes a measured sample under the threshold",
        how: Alike(|call, before, after| {
            if matches!(call, Call::Proposed { .. }) {
                measured_changed(call, before, after);
            }
        }),
    },
    Standin {
        name: "seq_both_missing_keeps_6",
        says: "a repair leaves mark 6 on a sample that it names",
        how: Alike(missing_keeps_6),
    },
    Standin {
        name: "seq_both_missing_changed",
        says: "a repair changes a sample that was not received and that it does not name",
        how: Alike(missing_changed),
    },
    Standin {
        name: "seq_both_missing_marked_0",
        says: "a repair marks a sample as measured that was not received and that it does not name",
        how: Alike(missing_marked_0),
    },
    Standin {
        name: "seq_both_measured_marked_6",
        says: "a repair marks a measured sample that it does not name as not received",
        how: Alike(measured_marked_6),
    },
    Standin {
        name: "seq_both_undo_gives_0_for_6",
        says: "undo gives back 0 for an old mark 6",
        how: Alike(undo_gives_0_for_6),
    },
    Standin {
        name: "seq_both_undo_gives_6_for_0",
        says: "undo gives back 6 for an old mark 0",
        how: Alike(undo_gives_6_for_0),
    },
    Standin {
        name: "seq_both_missing_enters_mark_0",
        says: "entries have 0 for an old mark 6",
        how: Alike(missing_enters_mark_0),
    },
    Standin {
        name: "seq_both_received_loses_6",
        says: "the opening of what was received sets every mark to 0",
        how: Alike(received_loses_6),
    },
    Standin {
        name: "seq_both_received_marks_nan",
        says: "the opening of what was received marks every NaN as not received",
        how: Alike(received_marks_nan),
    },
    Standin { name: "seq_both_open_keeps_marks", says: "opening leaves the marks", how: Alike(open_keeps_marks) },
    Standin {
        name: "seq_both_open_keeps_6",
        says: "the opening of what was measured keeps mark 6, as the other one does",
        how: Alike(open_keeps_6),
    },
    Standin {
        name: "seq_both_open_changes_sample",
        says: "opening changes the first sample",
        how: Alike(open_changes_sample),
    },
];

/// On both sides, and to be found only when the survivors are made alone.
const OF_BOTH_BY_REPLAY: &[Standin] = &[
    Standin {
        name: "seq_both_made_changed",
        says: "a repair changes a sample that it does not name and that a repair made before",
        how: Alike(made_changed),
    },
    Standin {
        name: "seq_both_made_sample_enters_word_0",
        says: "an entry has 0 for the old word of a sample that a repair made before",
        how: Alike(made_sample_enters_word_0),
    },
    Standin {
        name: "seq_both_later_only_mark",
        says: "repairs from the second on only mark, though not the later runs of a scan",
        how: Alike(later_only_mark),
    },
    Standin {
        name: "seq_both_after_undo_only_mark",
        says: "once something was undone, repairs only mark",
        how: Alike(after_undo_only_mark),
    },
    Standin {
        name: "seq_both_undo_keeps_made_words",
        says: "undo does not give back the word of a sample that an earlier repair made",
        how: Alike(undo_keeps_made_words),
    },
];

/// On both sides, and to be found only when all is undone.
const OF_BOTH_BY_UNDOING_ALL: &[Standin] = &[Standin {
    name: "seq_both_open_marks_1",
    says: "opening sets all marks to 1",
    how: Alike(|call, _, after| {
        if call == Call::Open {
            after.marks.fill(1);
        }
    }),
}];

/// On both sides, and to be found by either of the two.
const OF_BOTH_BY_EITHER: &[Standin] = &[
    Standin {
        name: "seq_both_received_keeps_marks",
        says: "the opening of what was received leaves the marks",
        how: Alike(received_keeps_marks),
    },
    Standin {
        name: "seq_both_marks_one_more",
        says: "a repair marks the sample before those that it names too",
        how: Alike(marks_one_more),
    },
    Standin {
        name: "seq_both_entry_has_new_mark",
        says: "entries have the new mark for the old one",
        how: Alike(entry_has_new_mark),
    },
    Standin {
        name: "seq_both_undo_keeps_marks",
        says: "undo gives back the words and not the marks",
        how: Alike(undo_keeps_marks),
    },
    Standin {
        name: "seq_both_undo_keeps_words_and_marks",
        says: "undo gives back neither words nor marks",
        how: Alike(undo_keeps_words_and_marks),
    },
    Standin {
        name: "seq_both_undo_misses_last",
        says: "undo does not give back the last sample of an entry",
        how: Alike(undo_misses_last),
    },
    Standin {
        name: "seq_both_undo_keeps_journal",
        says: "undo leaves the freed journal words",
        how: Alike(undo_keeps_journal),
    },
    Standin {
        name: "seq_both_open_keeps_journal",
        says: "opening leaves the journal words",
        how: Alike(open_keeps_journal),
    },
    Standin {
        name: "seq_both_open_enters_number",
        says: "opening writes the number of samples in the last journal word",
        how: Alike(open_enters_number),
    },
];

/// What each does is in the test's own files.
const OF_ACCOUNT: &[Standin] = &[
    Standin {
        name: "seq_account_undo_takes_first",
        says: "in the account an undo takes off the first survivor instead of the last",
        how: Account,
    },
    Standin { name: "seq_account_undo_takes_none", says: "in the account an undo takes off no survivor", how: Account },
    Standin {
        name: "seq_account_undo_takes_two",
        says: "in the account an undo takes off two survivors",
        how: Account,
    },
    Standin { name: "seq_account_scan_is_one", says: "in the account a scan is one survivor", how: Account },
    Standin {
        name: "seq_account_scan_is_last_run",
        says: "in the account only the last run of a scan survives",
        how: Account,
    },
    Standin { name: "seq_account_m_one_more", says: "in the account m is one too many", how: Account },
    Standin {
        name: "seq_account_open_keeps_survivors",
        says: "in the account an opening does not begin anew",
        how: Account,
    },
    Standin { name: "seq_account_refused_survives", says: "in the account a refused repair survives", how: Account },
    Standin {
        name: "seq_account_naming_none_survives",
        says: "in the account a repair that names nothing survives",
        how: Account,
    },
    Standin { name: "seq_account_gap_one_longer", says: "in the account a gap is one sample longer", how: Account },
    Standin { name: "seq_account_gap_one_later", says: "in the account a gap starts one sample later", how: Account },
    Standin {
        name: "seq_account_strength_halved",
        says: "in the account the strength of dequantize is half of what it was",
        how: Account,
    },
    Standin {
        name: "seq_account_start_old",
        says: "in the account decrackle from the mean is that from the old start",
        how: Account,
    },
    Standin {
        name: "seq_account_start_new",
        says: "in the account decrackle from the old start is that from the mean",
        how: Account,
    },
    Standin {
        name: "seq_account_threshold_higher",
        says: "in the account the threshold of a proposal is twice as high",
        how: Account,
    },
    Standin {
        name: "seq_account_proposal_as_left",
        says: "in the account a proposal becomes the samples as a later repair leaves them",
        how: Account,
    },
    Standin {
        name: "seq_account_proposal_is_first",
        says: "in the account every proposal is the first one",
        how: Account,
    },
    Standin { name: "seq_account_raw_marks_0", says: "in the account all raw marks are 0", how: Account },
    Standin {
        name: "seq_account_raw_marks_of_nan",
        says: "in the account the raw mark of every NaN is 6 where the recording was opened as received",
        how: Account,
    },
    Standin {
        name: "seq_account_replay_opens_as_measured",
        says: "in the account every recording was opened as measured",
        how: Account,
    },
    Standin {
        name: "seq_account_last_two_swapped",
        says: "in the account the last two survivors have changed places",
        how: Account,
    },
];

/// The library makes the call, and what it left is altered.
pub(super) fn altered(lent: &mut Lent, call: Call, alters: Alters) -> u32 {
    let before = lent.recording();
    let number = lent.call(call);
    let mut after = lent.recording();
    alter(alters, call, &before, &mut after);
    lent.put(&after);
    number
}

/// The entries from this word on up to used: where each starts, and how many samples it names.
pub(super) fn entries(of: &Recording, from: usize) -> Vec<(usize, usize)> {
    let mut found = Vec::new();
    let mut end = of.used;
    while end > from {
        let m = of.journal[end - 2] as usize;
        end -= entry_words(m);
        found.push((end, m));
    }
    found.reverse();
    found
}

/// The entries that a call has made come in the other order.
pub(super) fn reverse_entries(before: &Recording, after: &mut Recording) {
    let entry = |(start, m): (usize, usize)| after.journal[start..start + entry_words(m)].to_vec();
    let reversed: Vec<u32> = entries(after, before.used).into_iter().rev().flat_map(entry).collect();
    put_entries(before, after, &reversed);
}

/// The entries that a call has made, if there are several, become one, with the mark of the last.
pub(super) fn join_entries(before: &Recording, after: &mut Recording) {
    let found = entries(after, before.used);
    if found.len() > 1 {
        let named = found.into_iter().flat_map(|(start, m)| after.journal[start..start + 3 * m].to_vec());
        let mut entry: Vec<u32> = named.collect();
        entry.extend([entry.len() as u32 / 3, after.journal[after.used - 1]]);
        put_entries(before, after, &entry);
    }
}

/// Of the entries that a call has made only the first stays.
pub(super) fn enter_first(before: &Recording, after: &mut Recording) {
    if let Some((start, m)) = entries(after, before.used).first().copied() {
        let entry = after.journal[start..start + entry_words(m)].to_vec();
        put_entries(before, after, &entry);
    }
}

/// The entries that a call has made become these words.
pub(super) fn put_entries(before: &Recording, after: &mut Recording, words: &[u32]) {
    after.journal = before.journal.clone();
    after.used = before.used + words.len();
    after.journal[before.used..after.used].copy_from_slice(words);
}

/// Where the entries from this word on have a sample: the place, and after it the old word and the old mark.
fn samples_of(of: &Recording, from: usize) -> Vec<usize> {
    entries(of, from).into_iter().flat_map(|(start, m)| (start..start + 3 * m).step_by(3)).collect()
}

/// Where the journal has the samples that a call has named.
pub(super) fn named(before: &Recording, after: &Recording) -> Vec<usize> {
    samples_of(after, before.used)
}

/// Where the journal has those of them that a repair had made before.
fn named_made(before: &Recording, after: &Recording) -> Vec<usize> {
    let made = |at: &usize| is_made(before.marks[after.journal[*at] as usize]);
    named(before, after).into_iter().filter(made).collect()
}

/// The place before the first that a call has named, if there is one.
fn before_named(before: &Recording, after: &Recording) -> Option<usize> {
    named(before, after).first().and_then(|at| (after.journal[*at] as usize).checked_sub(1))
}

/// The places that an undo has taken back.
pub(super) fn taken_back(call: Call, before: &Recording, after: &Recording) -> Vec<usize> {
    let samples = if call == Call::Undo { samples_of(before, after.used) } else { Vec::new() };
    samples.into_iter().map(|at| before.journal[at] as usize).collect()
}

/// The word that a sample of this place had before the first entry that names it.
fn raw_word(of: &Recording, place: usize) -> Option<u32> {
    samples_of(of, 0).into_iter().find(|at| of.journal[*at] as usize == place).map(|at| of.journal[at + 1])
}

fn undo_keeps_marks(call: Call, before: &Recording, after: &mut Recording) {
    if call == Call::Undo {
        after.marks = before.marks.clone();
    }
}

fn undo_keeps_words(call: Call, before: &Recording, after: &mut Recording) {
    if call == Call::Undo {
        after.samples = before.samples.clone();
    }
}

fn undo_keeps_words_and_marks(call: Call, before: &Recording, after: &mut Recording) {
    undo_keeps_words(call, before, after);
    undo_keeps_marks(call, before, after);
}

fn undo_keeps_journal(call: Call, before: &Recording, after: &mut Recording) {
    if call == Call::Undo {
        after.journal = before.journal.clone();
    }
}

fn undo_keeps_journal_with_entries(call: Call, before: &Recording, after: &mut Recording) {
    if after.used > 0 {
        undo_keeps_journal(call, before, after);
    }
}

fn undo_marks_measured(call: Call, before: &Recording, after: &mut Recording) {
    for place in taken_back(call, before, after) {
        after.marks[place] = 0;
    }
}

fn undo_keeps_made_words(call: Call, before: &Recording, after: &mut Recording) {
    for place in taken_back(call, before, after) {
        if is_made(after.marks[place]) {
            after.samples[place] = before.samples[place];
        }
    }
}

fn undo_gives_raw_word(call: Call, before: &Recording, after: &mut Recording) {
    for place in taken_back(call, before, after) {
        after.samples[place] = raw_word(after, place).unwrap_or(after.samples[place]);
    }
}

fn undo_misses_last(call: Call, before: &Recording, after: &mut Recording) {
    if let Some(place) = taken_back(call, before, after).last() {
        after.samples[*place] = before.samples[*place];
        after.marks[*place] = before.marks[*place];
    }
}

fn refused_undo_changes_mark(call: Call, before: &Recording, after: &mut Recording) {
    if call == Call::Undo && before.used == 0 {
        after.marks.iter_mut().take(1).for_each(|mark| *mark ^= 1);
    }
}

fn later_only_mark(_: Call, before: &Recording, after: &mut Recording) {
    if before.used > 0 && after.used > before.used {
        after.samples = before.samples.clone();
    }
}

thread_local! {
    /// Whether something was undone since the last opening.
    static UNDONE: Cell<bool> = Cell::new(false);
}

fn after_undo_only_mark(call: Call, before: &Recording, after: &mut Recording) {
    if call.opens() || after.used < before.used {
        UNDONE.with(|undone| undone.set(call == Call::Undo));
    } else if UNDONE.with(Cell::get) {
        after.samples = before.samples.clone();
    }
}

fn later_entry_at_start(_: Call, before: &Recording, after: &mut Recording) {
    if before.used > 0 && after.used > before.used {
        let entry = after.journal[before.used..after.used].to_vec();
        after.journal = before.journal.clone();
        after.journal[..entry.len()].copy_from_slice(&entry);
    }
}

fn later_does_not_fill_journal(lent: &mut Lent, call: Call) -> u32 {
    let before = lent.recording();
    let number = lent.call(call);
    let used = lent.used.lent()[0];
    let is_single = matches!(call, Call::Gap { .. } | Call::Whole(_) | Call::Proposed { .. });
    if is_single && before.used > 0 && used > before.used && used == before.journal.len() {
        lent.put(&before);
        lent.numbers[0].lend()[0] = 0;
        lent.order.lend()[0] = 0;
        return 9;
    }
    number
}

fn made_sample_keeps_mark(_: Call, before: &Recording, after: &mut Recording) {
    for at in named_made(before, after) {
        let place = after.journal[at] as usize;
        after.marks[place] = before.marks[place];
    }
}

fn made_sample_keeps_word(_: Call, before: &Recording, after: &mut Recording) {
    for at in named_made(before, after) {
        let place = after.journal[at] as usize;
        after.samples[place] = before.samples[place];
    }
}

fn made_sample_enters_mark_0(_: Call, before: &Recording, after: &mut Recording) {
    for at in named_made(before, after) {
        after.journal[at + 2] = 0;
    }
}

fn made_sample_enters_word_0(_: Call, before: &Recording, after: &mut Recording) {
    for at in named_made(before, after) {
        after.journal[at + 1] = 0;
    }
}

fn made_sample_enters_raw_word(_: Call, before: &Recording, after: &mut Recording) {
    for at in named_made(before, after) {
        after.journal[at + 1] = raw_word(before, after.journal[at] as usize).unwrap_or(after.journal[at + 1]);
    }
}

fn entry_has_new_word(_: Call, before: &Recording, after: &mut Recording) {
    for at in named(before, after) {
        after.journal[at + 1] = after.samples[after.journal[at] as usize];
    }
}

fn entry_has_new_mark(_: Call, before: &Recording, after: &mut Recording) {
    for at in named(before, after) {
        after.journal[at + 2] = after.marks[after.journal[at] as usize].into();
    }
}

fn entry_has_place_before(_: Call, before: &Recording, after: &mut Recording) {
    if before_named(before, after).is_some() {
        for at in named(before, after) {
            after.journal[at] -= 1;
        }
    }
}

fn entry_a_place_too_few(_: Call, before: &Recording, after: &mut Recording) {
    if let Some((start, m)) = entries(after, before.used).pop() {
        let (m_at, mark) = (start + 3 * (m - 1), after.journal[after.used - 1]);
        after.journal[m_at..after.used].fill(0);
        after.journal[m_at] = m as u32 - 1;
        after.journal[m_at + 1] = mark;
        after.used = m_at + 2;
    }
}

fn scan_enters_first_run(call: Call, before: &Recording, after: &mut Recording) {
    if let Call::Scan(_) = call {
        enter_first(before, after);
    }
}

fn scan_enters_runs_reversed(call: Call, before: &Recording, after: &mut Recording) {
    if let Call::Scan(_) = call {
        reverse_entries(before, after);
    }
}

fn changed_not_marked(_: Call, before: &Recording, after: &mut Recording) {
    for at in named(before, after) {
        let place = after.journal[at] as usize;
        if after.samples[place] != before.samples[place] {
            after.marks[place] = 0;
        }
    }
}

fn measured_changed(_: Call, before: &Recording, after: &mut Recording) {
    if let Some(place) = before_named(before, after).filter(|place| after.marks[*place] == 0) {
        after.samples[place] ^= 1;
    }
}

fn made_changed(_: Call, before: &Recording, after: &mut Recording) {
    if let Some(place) = before_named(before, after).filter(|place| is_made(after.marks[*place])) {
        after.samples[place] ^= 1;
    }
}

fn marks_one_more(_: Call, before: &Recording, after: &mut Recording) {
    if let Some(place) = before_named(before, after) {
        after.marks[place] = after.marks[place + 1];
    }
}

fn refused_gap_changes_mark(call: Call, before: &Recording, after: &mut Recording) {
    if matches!(call, Call::Gap { .. }) && after.used == before.used {
        after.marks.iter_mut().take(1).for_each(|mark| *mark ^= 1);
    }
}

fn refused_proposal_changes_mark(call: Call, before: &Recording, after: &mut Recording) {
    if matches!(call, Call::Proposed { .. }) && after.used == before.used {
        after.marks.iter_mut().take(1).for_each(|mark| *mark ^= 1);
    }
}

fn naming_none_enters(call: Call, before: &Recording, after: &mut Recording) {
    if let Call::Whole(repair) = call {
        if repair.named(&floats(&before.samples)).is_empty() && after.journal.len() - after.used >= entry_words(0) {
            after.journal[after.used + 1] = repair.mark().into();
            after.used += entry_words(0);
        }
    }
}

fn open_keeps_marks(call: Call, before: &Recording, after: &mut Recording) {
    if call == Call::Open {
        after.marks = before.marks.clone();
    }
}

fn open_keeps_journal(call: Call, before: &Recording, after: &mut Recording) {
    if call == Call::Open {
        after.journal = before.journal.clone();
    }
}

fn open_changes_sample(call: Call, _: &Recording, after: &mut Recording) {
    if call == Call::Open {
        after.samples.iter_mut().take(1).for_each(|word| *word ^= 1);
    }
}

fn open_enters_number(call: Call, _: &Recording, after: &mut Recording) {
    if let (Call::Open, Some(word)) = (call, after.journal.last_mut()) {
        *word = after.samples.len() as u32;
    }
}

fn repair_sets_6(_: Call, before: &Recording, after: &mut Recording) {
    for at in named(before, after) {
        after.marks[after.journal[at] as usize] = NOT_RECEIVED;
    }
}

/// Where an entry that a call has made sets the one mark, its samples are marked with the other.
fn marks_for(before: &Recording, after: &mut Recording, [given, set]: [u8; 2]) {
    for at in named(before, after) {
        let mark = &mut after.marks[after.journal[at] as usize];
        *mark = if *mark == set { given } else { *mark };
    }
}

/// Where an entry that a call has made sets the one mark, it has the other.
fn enters_for(before: &Recording, after: &mut Recording, [given, set]: [u8; 2]) {
    for (start, m) in entries(after, before.used) {
        let mark = &mut after.journal[start + entry_words(m) - 1];
        *mark = if *mark == set.into() { given.into() } else { *mark };
    }
}

/// Both.
fn sets_for(before: &Recording, after: &mut Recording, marks: [u8; 2]) {
    marks_for(before, after, marks);
    enters_for(before, after, marks);
}

/// Where the journal has those of the named samples that were not received.
fn named_missing(before: &Recording, after: &Recording) -> Vec<usize> {
    let missing = |at: &usize| before.marks[after.journal[*at] as usize] == NOT_RECEIVED;
    named(before, after).into_iter().filter(missing).collect()
}

fn missing_keeps_6(_: Call, before: &Recording, after: &mut Recording) {
    for at in named_missing(before, after) {
        after.marks[after.journal[at] as usize] = NOT_RECEIVED;
    }
}

fn missing_enters_mark_0(_: Call, before: &Recording, after: &mut Recording) {
    for at in named_missing(before, after) {
        after.journal[at + 2] = 0;
    }
}

fn missing_changed(_: Call, before: &Recording, after: &mut Recording) {
    if let Some(place) = before_named(before, after).filter(|place| after.marks[*place] == NOT_RECEIVED) {
        after.samples[place] ^= 1;
    }
}

fn missing_marked_0(_: Call, before: &Recording, after: &mut Recording) {
    if let Some(place) = before_named(before, after).filter(|place| after.marks[*place] == NOT_RECEIVED) {
        after.marks[place] = 0;
    }
}

fn measured_marked_6(_: Call, before: &Recording, after: &mut Recording) {
    if let Some(place) = before_named(before, after).filter(|place| after.marks[*place] == 0) {
        after.marks[place] = NOT_RECEIVED;
    }
}

/// An undo gives back the one mark for the other.
fn undo_gives(call: Call, before: &Recording, after: &mut Recording, [given, old]: [u8; 2]) {
    for place in taken_back(call, before, after) {
        if after.marks[place] == old {
            after.marks[place] = given;
        }
    }
}

fn undo_gives_0_for_6(call: Call, before: &Recording, after: &mut Recording) {
    undo_gives(call, before, after, [0, NOT_RECEIVED]);
}

fn undo_gives_6_for_0(call: Call, before: &Recording, after: &mut Recording) {
    undo_gives(call, before, after, [NOT_RECEIVED, 0]);
}

fn undo_gives_4_for_7(call: Call, before: &Recording, after: &mut Recording) {
    undo_gives(call, before, after, [4, 7]);
}

fn undo_gives_3_for_8(call: Call, before: &Recording, after: &mut Recording) {
    undo_gives(call, before, after, [3, 8]);
}

/// An entry that a call has made has the one mark for the other as an old one.
fn enters_old(before: &Recording, after: &mut Recording, [given, old]: [u32; 2]) {
    for at in named(before, after) {
        let entered = &mut after.journal[at + 2];
        *entered = if *entered == old { given } else { *entered };
    }
}

fn made_by_mean_enters_mark_4(_: Call, before: &Recording, after: &mut Recording) {
    enters_old(before, after, [4, 7]);
}

fn made_by_proposal_enters_mark_3(_: Call, before: &Recording, after: &mut Recording) {
    enters_old(before, after, [3, 8]);
}

fn undo_gives_missing_word(call: Call, before: &Recording, after: &mut Recording) {
    for place in taken_back(call, before, after) {
        if after.marks[place] == NOT_RECEIVED {
            after.samples[place] = MISSING_WORD;
        }
    }
}

/// The library makes the call, and an accepted undo that is so is refused by 11. The recordings before and after it are
/// told.
fn undo_refuses(lent: &mut Lent, call: Call, so: fn(&Recording, &Recording) -> bool) -> u32 {
    let before = lent.recording();
    let number = lent.call(call);
    if call == Call::Undo && number == 0 && so(&before, &lent.recording()) {
        lent.put(&before);
        lent.numbers[0].lend()[0] = 0;
        return 11;
    }
    number
}

fn undo_refuses_old_mark_6(lent: &mut Lent, call: Call) -> u32 {
    undo_refuses(lent, call, |before, after| {
        taken_back(Call::Undo, before, after).into_iter().any(|place| after.marks[place] == NOT_RECEIVED)
    })
}

fn undo_refuses_set_mark_7(lent: &mut Lent, call: Call) -> u32 {
    undo_refuses(lent, call, |before, _| before.journal[before.used - 1] == 7)
}

fn undo_refuses_set_mark_8(lent: &mut Lent, call: Call) -> u32 {
    undo_refuses(lent, call, |before, _| before.journal[before.used - 1] == 8)
}

/// The library makes the call, and a proposal that it takes is refused by 15 at the first place that is so. The
/// recording before the call is told.
fn proposal_refuses(lent: &mut Lent, call: Call, so: impl Fn(&Recording, &[u32], usize) -> bool) -> u32 {
    let (before, proposal) = (lent.recording(), lent.proposal.lent().to_vec());
    let number = lent.call(call);
    let first = (0..before.samples.len()).find(|place| number == 0 && so(&before, &proposal, *place));
    if let (Call::Proposed { .. }, Some(place)) = (call, first) {
        lent.put(&before);
        lent.numbers[0].lend()[0] = place;
        return 15;
    }
    number
}

fn proposal_refuses_made(lent: &mut Lent, call: Call) -> u32 {
    proposal_refuses(lent, call, |before, proposal, place| {
        is_made(before.marks[place]) && proposal[place] != before.samples[place]
    })
}

fn proposal_against_raw(lent: &mut Lent, call: Call) -> u32 {
    let threshold = match call {
        Call::Proposed { threshold } => threshold,
        _ => return lent.call(call),
    };
    proposal_refuses(lent, call, |before, proposal, place| {
        let raw = raw_word(before, place);
        f32::from_bits(before.samples[place]).abs() < threshold && raw.map_or(false, |raw| raw != proposal[place])
    })
}

fn whole_refuses_mark_6(lent: &mut Lent, call: Call) -> u32 {
    let (before, work) = (lent.recording(), lent.words.lent().to_vec());
    let number = lent.call(call);
    let place = before.marks.iter().position(|mark| *mark == NOT_RECEIVED);
    if let (Call::Whole(_), 0, Some(place)) = (call, number, place) {
        lent.put(&before);
        lent.words.lend().copy_from_slice(&work);
        lent.numbers[0].lend()[0] = place;
        return 7;
    }
    number
}

fn received_loses_6(call: Call, _: &Recording, after: &mut Recording) {
    if call == Call::OpenReceived {
        after.marks.fill(0);
    }
}

fn received_keeps_marks(call: Call, before: &Recording, after: &mut Recording) {
    if call == Call::OpenReceived {
        after.marks = before.marks.clone();
    }
}

fn received_marks_nan(call: Call, _: &Recording, after: &mut Recording) {
    let nan = floats(&after.samples).into_iter().map(f32::is_nan);
    for (mark, _) in after.marks.iter_mut().zip(nan).filter(|(_, nan)| call == Call::OpenReceived && *nan) {
        *mark = NOT_RECEIVED;
    }
}

fn open_keeps_6(call: Call, before: &Recording, after: &mut Recording) {
    let kept = |mark: &u8| call == Call::Open && *mark == NOT_RECEIVED;
    for (mark, _) in after.marks.iter_mut().zip(&before.marks).filter(|(_, old)| kept(old)) {
        *mark = NOT_RECEIVED;
    }
}
