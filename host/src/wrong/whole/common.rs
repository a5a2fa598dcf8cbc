//! Stand-ins for what the four repairs over the whole recording have in common: refusals, workspace, journal, marks.
use super::{answers, at, is_end, set_value, value};
use crate::call::Call;
use crate::lent::{Lent, GUARDS};
use crate::recording::{entry_words, in_range, Answer, Recording};
use crate::whole::{floats, needed};
use crate::wrong::How::Library;
use crate::wrong::{Finds, Standin, Table};

pub(super) const IN_DECLIPS: Table = Table {
    file: "whole",
    test: "declips",
    finds: Finds::Always,
    standins: &[
        Standin {
            name: "whole_7_at_last",
            says: "refusal 7 carries the highest place that is not in range instead of the lowest",
            how: Library(seven_at_last),
        },
        Standin {
            name: "whole_7_before_6",
            says: "refusal 7 is given where the workspace is too short as well",
            how: Library(seven_before_six),
        },
        Standin {
            name: "whole_9_before_8",
            says: "refusal 9 is given where a result is not in range as well",
            how: Library(nine_before_eight),
        },
        Standin {
            name: "whole_9_for_nothing",
            says: "refusal 9 is given where nothing is named and the journal has fewer than 2 free words",
            how: Library(nine_for_nothing),
        },
        Standin {
            name: "whole_work_kept_after_8",
            says: "the workspace keeps its contents after refusal 8",
            how: Library(|lent, call| keeps_work_after(lent, call, 8)),
        },
        Standin {
            name: "whole_marks_changed_only",
            says: "of the named samples only those whose word changed are marked",
            how: Library(marks_changed_only),
        },
    ],
};

/// What is tried in decrackle, from either start.
macro_rules! in_decrackles {
    ($call:literal) => {
        &[
            library!(
                concat!($call, "_7_only_if_named"),
                "refusal 7 is not given where nothing would be named",
                seven_only_if_named,
            ),
            library!(
                concat!($call, "_8_at_first_only"),
                "only the result at the first named sample has to be in range",
                eight_at_first_only,
            ),
            library!(
                concat!($call, "_8_at_last"),
                "refusal 8 carries the highest place whose result is not in range instead of the lowest",
                eight_at_last,
            ),
            library!(concat!($call, "_work_one_less"), "a workspace of 2n-1 words is enough", work_one_less),
            library!(
                concat!($call, "_work_kept_after_9"),
                "the workspace keeps its contents after refusal 9",
                |lent, call| keeps_work_after(lent, call, 9),
            ),
            library!(
                concat!($call, "_entry_for_nothing"),
                "an entry is appended where nothing is named and two journal words are free",
                entry_for_nothing,
            ),
            library!(
                concat!($call, "_old_marks_0"),
                "each old mark in the entry is 0, as if every sample had been measured",
                old_marks_0,
            ),
        ]
    };
}

pub(super) const IN_DECRACKLES: Table =
    Table { file: "whole", test: "decrackles", finds: Finds::Always, standins: in_decrackles!("whole") };

pub(super) const IN_DECRACKLES_OLD_START: Table =
    Table { file: "whole", test: "decrackles_old_start", finds: Finds::Always, standins: in_decrackles!("whole_old") };

pub(super) const IN_DEQUANTIZES: Table = Table {
    file: "whole",
    test: "dequantizes",
    finds: Finds::Always,
    standins: &[
        Standin {
            name: "whole_4_after_7",
            says: "refusal 4 is given only where neither 6 nor 7 applies",
            how: Library(four_after_seven),
        },
        Standin {
            name: "whole_work_one_more",
            says: "a workspace of 2n words is too short, and 2n+1 are asked for",
            how: Library(work_one_more),
        },
        Standin {
            name: "whole_work_kept_after_0",
            says: "the workspace keeps its contents after an acceptance",
            how: Library(|lent, call| keeps_work_after(lent, call, 0)),
        },
        Standin {
            name: "whole_work_half_cleared",
            says: "only the first n words of the workspace are +0 at the end",
            how: Library(work_half_cleared),
        },
        Standin {
            name: "whole_value_changed",
            says: "an accepted repair returns how many words changed instead of m",
            how: Library(value_changed),
        },
        Standin {
            name: "whole_entry_descending",
            says: "the places in the entry descend",
            how: Library(entry_descending),
        },
        Standin {
            name: "whole_unnamed_written",
            says: "a sample that is not named is written too: its -0 becomes +0",
            how: Library(unnamed_written),
        },
    ],
};

pub(super) const IN_COSPARSE: Table = Table {
    file: "whole",
    test: "cosparse",
    finds: Finds::Always,
    standins: &[
        Standin {
            name: "whole_work_cleared_after_7",
            says: "the workspace is all +0 after refusal 7",
            how: Library(work_cleared_after_7),
        },
        Standin {
            name: "whole_work_one_more_cleared",
            says: "the word behind the needed part of the workspace becomes +0 too",
            how: Library(work_one_more_cleared),
        },
        Standin {
            name: "whole_work_minus_0",
            says: "the needed part of the workspace is all -0 at the end",
            how: Library(work_minus_0),
        },
        Standin { name: "whole_value_after_9", says: "refusal 9 carries m", how: Library(value_after_9) },
        Standin {
            name: "whole_9_one_early",
            says: "refusal 9 is given where the journal has just 3m+2 free words",
            how: Library(nine_one_early),
        },
        Standin {
            name: "whole_mark_of_other",
            says: "the mark that is set, in the marks and in the entry, is one less than it has to be",
            how: Library(mark_of_other),
        },
        Standin {
            name: "whole_new_words_saved",
            says: "the entry holds the new words instead of the old ones",
            how: Library(new_words_saved),
        },
    ],
};

/// The lowest place whose sample is not in range.
fn first_out_of_range(lent: &Lent) -> Option<usize> {
    lent.samples().iter().position(|word| !in_range(*word))
}

/// How many words of the workspace the repair needs.
fn needed_words(lent: &Lent) -> usize {
    needed(lent.samples().len())
}

/// The needed part of the workspace, where it is not too short.
fn needed_part(lent: &mut Lent) -> &mut [u32] {
    let needed = needed_words(lent);
    &mut lent.words.lend()[..needed]
}

/// How many journal words are free.
fn free(lent: &Lent) -> usize {
    lent.journal.lent().len().saturating_sub(lent.used.lent()[0])
}

/// The places that the call names, each with its new word; none, where 4 or 7 applies.
fn rewritten(recording: &Recording, call: Call) -> Vec<(usize, u32)> {
    let is_readable = recording.samples.iter().all(|word| in_range(*word));
    match call {
        Call::Whole(repair) if repair.is_allowed() && is_readable => {
            let samples = floats(&recording.samples);
            let named = at(repair.named(&samples), &repair.after(&samples));
            named.into_iter().map(|(place, x)| (place, x.to_bits())).collect()
        }
        _ => Vec::new(),
    }
}

/// The library makes the call, and then this is done with the entry that it has appended, if it has: for each named
/// sample three words, and then two. The samples are told as they then stand.
fn alters_entry(lent: &mut Lent, call: Call, alters: fn(&mut [u32], &[u32])) -> u32 {
    let start = lent.used.lent()[0];
    let number = lent.call(call);
    let (end, samples) = (lent.used.lent()[0], lent.samples().to_vec());
    if end > start {
        alters(&mut lent.journal.lend()[start..end], &samples);
    }
    number
}

fn seven_at_last(lent: &mut Lent, call: Call) -> u32 {
    let number = lent.call(call);
    let last = lent.samples().iter().rposition(|word| !in_range(*word));
    if let (7, Some(place)) = (number, last) {
        set_value(lent, place);
    }
    number
}

fn seven_before_six(lent: &mut Lent, call: Call) -> u32 {
    let number = lent.call(call);
    match first_out_of_range(lent) {
        Some(place) if number == 6 => {
            set_value(lent, place);
            7
        }
        _ => number,
    }
}

fn seven_only_if_named(lent: &mut Lent, call: Call) -> u32 {
    let number = lent.call(call);
    let samples = floats(lent.samples());
    match call {
        Call::Whole(repair) if number == 7 && repair.named(&samples).is_empty() => {
            needed_part(lent).fill(0);
            set_value(lent, 0);
            0
        }
        _ => number,
    }
}

fn four_after_seven(lent: &mut Lent, call: Call) -> u32 {
    let number = lent.call(call);
    let is_short = lent.words.lent().len() < needed_words(lent);
    match first_out_of_range(lent) {
        _ if number == 4 && is_short => 6,
        Some(place) if number == 4 => {
            set_value(lent, place);
            7
        }
        _ => number,
    }
}

fn eight_at_first_only(lent: &mut Lent, call: Call) -> u32 {
    let mut recording = lent.recording();
    let named = rewritten(&recording, call);
    let number = lent.call(call);
    match call {
        Call::Whole(repair) if number == 8 && in_range(named[0].1) => {
            let zeros: Vec<(usize, u32)> = named.iter().map(|(place, _)| (*place, 0)).collect();
            let answer = recording.commit(repair.mark(), &zeros);
            for (place, word) in named.iter().filter(|_| answer.number() == 0) {
                recording.samples[*place] = *word;
            }
            answers(lent, &recording, answer)
        }
        _ => number,
    }
}

fn eight_at_last(lent: &mut Lent, call: Call) -> u32 {
    let named = rewritten(&lent.recording(), call);
    let number = lent.call(call);
    let last = named.iter().rfind(|(_, word)| !in_range(*word));
    if let (8, Some((place, _))) = (number, last) {
        set_value(lent, *place);
    }
    number
}

fn nine_before_eight(lent: &mut Lent, call: Call) -> u32 {
    let m = rewritten(&lent.recording(), call).len();
    let number = lent.call(call);
    if number == 8 && free(lent) < entry_words(m) {
        set_value(lent, 0);
        return 9;
    }
    number
}

fn nine_for_nothing(lent: &mut Lent, call: Call) -> u32 {
    let number = lent.call(call);
    if number == 0 && value(lent) == 0 && free(lent) < entry_words(0) {
        return 9;
    }
    number
}

fn nine_one_early(lent: &mut Lent, call: Call) -> u32 {
    let before = lent.recording();
    let number = lent.call(call);
    let m = value(lent);
    if number == 0 && m > 0 && before.journal.len() - before.used == entry_words(m) {
        return answers(lent, &before, Answer::Refused(9));
    }
    number
}

fn work_one_less(lent: &mut Lent, call: Call) -> u32 {
    let lent_words = lent.words.lent().len();
    lent.lend_words(&[lent.words.lent(), &[0]].concat());
    let number = lent.call(call);
    lent.lend_words(&lent.words.lent()[..lent_words].to_vec());
    number
}

fn work_one_more(lent: &mut Lent, call: Call) -> u32 {
    let (before, work) = (lent.recording(), lent.words.lent().to_vec());
    let number = lent.call(call);
    if (is_end(number) || number == 7) && work.len() == needed_words(lent) {
        lent.lend_words(&work);
        return answers(lent, &before, Answer::Refused(6));
    }
    number
}

/// The workspace keeps its contents after this answer.
fn keeps_work_after(lent: &mut Lent, call: Call, after: u32) -> u32 {
    let work = lent.words.lent().to_vec();
    let number = lent.call(call);
    if number == after {
        lent.words.lend().copy_from_slice(&work);
    }
    number
}

fn work_half_cleared(lent: &mut Lent, call: Call) -> u32 {
    let (work, n) = (lent.words.lent().to_vec(), lent.samples().len());
    let number = lent.call(call);
    if is_end(number) {
        lent.words.lend()[n..].copy_from_slice(&work[n..]);
    }
    number
}

fn work_cleared_after_7(lent: &mut Lent, call: Call) -> u32 {
    let number = lent.call(call);
    if number == 7 {
        needed_part(lent).fill(0);
    }
    number
}

fn work_one_more_cleared(lent: &mut Lent, call: Call) -> u32 {
    let number = lent.call(call);
    if is_end(number) {
        let behind = GUARDS + needed_words(lent);
        lent.words.whole[behind] = 0;
    }
    number
}

fn work_minus_0(lent: &mut Lent, call: Call) -> u32 {
    let number = lent.call(call);
    if is_end(number) {
        needed_part(lent).fill(0x8000_0000);
    }
    number
}

fn entry_for_nothing(lent: &mut Lent, call: Call) -> u32 {
    let number = lent.call(call);
    match call {
        Call::Whole(repair) if number == 0 && value(lent) == 0 && free(lent) >= entry_words(0) => {
            let used = lent.used.lent()[0];
            lent.journal.lend()[used..used + 2].copy_from_slice(&[0, u32::from(repair.mark())]);
            lent.used.lend()[0] += 2;
        }
        _ => {}
    }
    number
}

fn old_marks_0(lent: &mut Lent, call: Call) -> u32 {
    alters_entry(lent, call, |entry, _| {
        for named in entry.chunks_exact_mut(3) {
            named[2] = 0;
        }
    })
}

fn new_words_saved(lent: &mut Lent, call: Call) -> u32 {
    alters_entry(lent, call, |entry, samples| {
        for named in entry.chunks_exact_mut(3) {
            named[1] = samples[named[0] as usize];
        }
    })
}

fn entry_descending(lent: &mut Lent, call: Call) -> u32 {
    alters_entry(lent, call, |entry, _| {
        let end = entry.len() - 2;
        let descending: Vec<u32> = entry[..end].chunks(3).rev().flatten().copied().collect();
        entry[..end].copy_from_slice(&descending);
    })
}

fn value_changed(lent: &mut Lent, call: Call) -> u32 {
    let before = lent.recording();
    let number = lent.call(call);
    if number == 0 {
        let changed = before.samples.iter().zip(lent.samples()).filter(|(old, new)| old != new).count();
        set_value(lent, changed);
    }
    number
}

fn value_after_9(lent: &mut Lent, call: Call) -> u32 {
    let m = rewritten(&lent.recording(), call).len();
    let number = lent.call(call);
    if number == 9 {
        set_value(lent, m);
    }
    number
}

fn marks_changed_only(lent: &mut Lent, call: Call) -> u32 {
    let before = lent.recording();
    let number = lent.call(call);
    let mut after = lent.recording();
    for place in (0..after.marks.len().min(after.samples.len())).filter(|_| number == 0) {
        if after.samples[place] == before.samples[place] {
            after.marks[place] = before.marks[place];
        }
    }
    lent.put(&after);
    number
}

fn mark_of_other(lent: &mut Lent, call: Call) -> u32 {
    let named = rewritten(&lent.recording(), call);
    let number = alters_entry(lent, call, |entry, _| entry[entry.len() - 1] -= 1);
    for (place, _) in named.iter().filter(|_| number == 0) {
        lent.marks.lend()[*place] -= 1;
    }
    number
}

fn unnamed_written(lent: &mut Lent, call: Call) -> u32 {
    let named = rewritten(&lent.recording(), call);
    let number = lent.call(call);
    for (place, word) in lent.samples.lend().iter_mut().enumerate().filter(|_| number == 0) {
        if named.binary_search_by_key(&place, |(place, _)| *place).is_err() && *word == 0x8000_0000 {
            *word = 0;
        }
    }
    number
}
