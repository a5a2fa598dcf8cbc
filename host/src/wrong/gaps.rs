//! Stand-ins for the repair of a gap.
use super::How::Library;
use super::{Finds, Standin, Table};
use crate::call::Call;
use crate::inpaint::Gap;
use crate::lent::{Lent, GUARDS};
use crate::original;
use crate::recording::{entry_words, in_range, Recording, MOST_SAMPLES};
use std::mem;
use std::ops::Range;

pub(super) const TABLES: &[Table] =
    &[Table { file: "inpaint", test: "repairs", finds: Finds::Always, standins: STANDINS }];

const STANDINS: &[Standin] = &[
    Standin {
        name: "gap_window_short_left",
        says: "the window begins one sample late where it does not begin with the recording",
        how: Library(gap_window_short_left),
    },
    Standin {
        name: "gap_window_short_right",
        says: "the window ends one sample early where it does not end with the recording",
        how: Library(gap_window_short_right),
    },
    Standin {
        name: "gap_window_without_first",
        says: "the recording's first sample is in no window",
        how: Library(gap_window_without_first),
    },
    Standin {
        name: "gap_window_without_last",
        says: "the recording's last sample is in no window",
        how: Library(gap_window_without_last),
    },
    Standin {
        name: "gap_context_by_length",
        says: "the context is 4*len, also where 1024 is larger",
        how: Library(gap_context_by_length),
    },
    Standin {
        name: "gap_context_fixed",
        says: "the context is 1024, also where 4*len is larger",
        how: Library(gap_context_fixed),
    },
    Standin {
        name: "gap_of_2048_by_line",
        says: "a gap of 2048 is filled by straight line, with mark 2",
        how: Library(gap_of_2048_by_line),
    },
    Standin {
        name: "gap_of_2048_by_line_marked_1",
        says: "a gap of 2048 is filled by straight line, with mark 1",
        how: Library(gap_of_2048_by_line_marked_1),
    },
    Standin { name: "gap_of_2048_marked_2", says: "a gap of 2048 has mark 2", how: Library(gap_of_2048_marked_2) },
    Standin { name: "gap_of_2049_marked_1", says: "a gap of 2049 has mark 1", how: Library(gap_of_2049_marked_1) },
    Standin {
        name: "gap_line_flat_at_ends",
        says: "for a line a neighbour that does not exist is taken to be as the other, and not 0",
        how: Library(gap_line_flat_at_ends),
    },
    Standin { name: "gap_line_from_0", says: "on a line t is i/(len+1)", how: Library(gap_line_from_0) },
    Standin { name: "gap_line_by_len", says: "on a line t is (i+1)/len", how: Library(gap_line_by_len) },
    Standin {
        name: "gap_line_by_difference",
        says: "a line is left+(right-left)*t",
        how: Library(gap_line_by_difference),
    },
    Standin {
        name: "gap_line_in_doubles",
        says: "a line is worked out in doubles and then narrowed",
        how: Library(gap_line_in_doubles),
    },
    Standin {
        name: "gap_result_cut",
        says: "in a gap by model longer than 128 the last result is one step nearer to zero, as if it were cut",
        how: Library(gap_result_cut),
    },
    Standin { name: "gap_minus_zero_lost", says: "a result of -0 is written as +0", how: Library(gap_minus_zero_lost) },
    Standin { name: "gap_no_pass", says: "with 0 passes the samples stay as they were", how: Library(gap_no_pass) },
    Standin {
        name: "gap_last_not_written",
        says: "the gap's last sample is not written",
        how: Library(gap_last_not_written),
    },
    Standin {
        name: "gap_last_not_marked",
        says: "the gap's last sample is not marked",
        how: Library(gap_last_not_marked),
    },
    Standin {
        name: "gap_first_not_marked",
        says: "the gap's first sample is not marked",
        how: Library(gap_first_not_marked),
    },
    Standin {
        name: "gap_model_marked_2",
        says: "a gap by model has mark 2, and its entry mark 1",
        how: Library(gap_model_marked_2),
    },
    Standin {
        name: "gap_sample_after_changed",
        says: "the sample after the gap changes in its last digit",
        how: Library(gap_sample_after_changed),
    },
    Standin {
        name: "gap_sample_after_marked",
        says: "the sample after the gap is marked too",
        how: Library(gap_sample_after_marked),
    },
    Standin {
        name: "gap_sample_past_end",
        says: "a gap that reaches the end is written one sample past it",
        how: Library(gap_sample_past_end),
    },
    Standin {
        name: "gap_mark_before_start",
        says: "a gap at the start is marked one sample before it",
        how: Library(gap_mark_before_start),
    },
    Standin {
        name: "gap_7_from_window",
        says: "the place of 7 is counted from where the window begins",
        how: Library(gap_7_from_window),
    },
    Standin { name: "gap_7_highest", says: "the place of 7 is the highest such place", how: Library(gap_7_highest) },
    Standin { name: "gap_7_in_gap", says: "7 is given for a sample in the gap too", how: Library(gap_7_in_gap) },
    Standin {
        name: "gap_7_before_window",
        says: "7 is given for the last sample before the window too",
        how: Library(gap_7_before_window),
    },
    Standin {
        name: "gap_7_after_window",
        says: "7 is given for the first sample after the window too",
        how: Library(gap_7_after_window),
    },
    Standin {
        name: "gap_7_not_first",
        says: "7 is not given for the window's first sample, where that is not the recording's",
        how: Library(gap_7_not_first),
    },
    Standin {
        name: "gap_7_not_last",
        says: "7 is not given for the window's last sample, where that is not the recording's",
        how: Library(gap_7_not_last),
    },
    Standin {
        name: "gap_7_line_not_right",
        says: "7 is not given for the sample after a gap by line",
        how: Library(gap_7_line_not_right),
    },
    Standin {
        name: "gap_7_at_65536",
        says: "7 is given for a sample of magnitude 65,536 too",
        how: Library(gap_7_at_65536),
    },
    Standin {
        name: "gap_7_not_above_65536",
        says: "7 is not given for the next number above 65,536",
        how: Library(gap_7_not_above_65536),
    },
    Standin {
        name: "gap_8_from_gap",
        says: "the place of 8 is counted from where the gap begins",
        how: Library(gap_8_from_gap),
    },
    Standin { name: "gap_8_last", says: "the place of 8 is the highest such place", how: Library(gap_8_last) },
    Standin {
        name: "gap_8_at_65536",
        says: "8 is given for a result of magnitude 65,536 too",
        how: Library(gap_8_at_65536),
    },
    Standin {
        name: "gap_8_not_given",
        says: "8 is never given, and the results are written",
        how: Library(gap_8_not_given),
    },
    Standin {
        name: "gap_8_written",
        says: "on 8 the results before the place that is told stay written",
        how: Library(gap_8_written),
    },
    Standin { name: "gap_2_before_1", says: "2 is answered where 1 applies too", how: Library(gap_2_before_1) },
    Standin { name: "gap_2_at_most", says: "2 is given for 1,048,576 samples", how: Library(gap_2_at_most) },
    Standin {
        name: "gap_3_at_journal_end",
        says: "3 is given where used is the journal's length",
        how: Library(gap_3_at_journal_end),
    },
    Standin { name: "gap_5_before_3", says: "5 is answered where 3 applies too", how: Library(gap_5_before_3) },
    Standin {
        name: "gap_5_not_past_end",
        says: "5 is not given for a gap past the end, and 6 is",
        how: Library(gap_5_not_past_end),
    },
    Standin {
        name: "gap_5_end_wraps",
        says: "start and length past 2^64 wrap round, so that 5 is not given, and 6 is",
        how: Library(gap_5_end_wraps),
    },
    Standin {
        name: "gap_5_not_of_length_0",
        says: "a gap of length 0 within the recording is accepted and names nothing",
        how: Library(gap_5_not_of_length_0),
    },
    Standin { name: "gap_6_before_5", says: "6 is answered where 5 applies too", how: Library(gap_6_before_5) },
    Standin {
        name: "gap_6_before_5_near_end",
        says: "6 is answered where 5 applies too, for a gap past the end that is no longer than the recording",
        how: Library(gap_6_before_5_near_end),
    },
    Standin {
        name: "gap_6_one_fewer",
        says: "a workspace that is one double short is taken as enough",
        how: Library(gap_6_one_fewer),
    },
    Standin {
        name: "gap_6_one_more",
        says: "the workspace has to be one double longer than needed",
        how: Library(gap_6_one_more),
    },
    Standin { name: "gap_7_before_6", says: "7 is answered where 6 applies too", how: Library(gap_7_before_6) },
    Standin { name: "gap_9_before_8", says: "9 is answered where 8 applies too", how: Library(gap_9_before_8) },
    Standin {
        name: "gap_9_one_fewer",
        says: "3m+1 free journal words are taken as enough, and 0 is answered with nothing done",
        how: Library(gap_9_one_fewer),
    },
    Standin {
        name: "gap_9_one_more",
        says: "9 is given where exactly 3m+2 journal words are free",
        how: Library(gap_9_one_more),
    },
    Standin { name: "gap_9_written", says: "on 9 the results stay written", how: Library(gap_9_written) },
    Standin { name: "gap_9_marked", says: "on 9 the gap stays marked", how: Library(gap_9_marked) },
    Standin {
        name: "gap_workspace_kept",
        says: "the workspace is not cleared after an acceptance",
        how: Library(gap_workspace_kept),
    },
    Standin {
        name: "gap_workspace_kept_on_8",
        says: "the workspace is not cleared after 8",
        how: Library(gap_workspace_kept_on_8),
    },
    Standin {
        name: "gap_workspace_kept_on_9",
        says: "the workspace is not cleared after 9",
        how: Library(gap_workspace_kept_on_9),
    },
    Standin {
        name: "gap_workspace_cleared_on_6",
        says: "the workspace is cleared after 6",
        how: Library(gap_workspace_cleared_on_6),
    },
    Standin {
        name: "gap_workspace_cleared_on_7",
        says: "the workspace is cleared after 7",
        how: Library(gap_workspace_cleared_on_7),
    },
    Standin {
        name: "gap_workspace_one_far",
        says: "the workspace is cleared one double beyond the needed part, where it is so long",
        how: Library(gap_workspace_one_far),
    },
    Standin {
        name: "gap_workspace_past_end",
        says: "one double past the lent workspace is cleared, where it is just as long as needed",
        how: Library(gap_workspace_past_end),
    },
    Standin {
        name: "gap_workspace_one_short",
        says: "the last double of the needed part is not cleared",
        how: Library(gap_workspace_one_short),
    },
    Standin {
        name: "gap_workspace_minus_zero",
        says: "the last double of the needed part is cleared to -0",
        how: Library(gap_workspace_minus_zero),
    },
    Standin {
        name: "gap_entry_new_words",
        says: "the entry has the new words in place of the old ones",
        how: Library(gap_entry_new_words),
    },
    Standin {
        name: "gap_entry_new_marks",
        says: "the entry has the new marks in place of the old ones",
        how: Library(gap_entry_new_marks),
    },
    Standin { name: "gap_entry_m_less", says: "the entry's m is one less", how: Library(gap_entry_m_less) },
    Standin {
        name: "gap_entry_mark_2",
        says: "the entry of a gap by model has mark 2",
        how: Library(gap_entry_mark_2),
    },
    Standin { name: "gap_entry_descends", says: "the entry's samples descend", how: Library(gap_entry_descends) },
    Standin {
        name: "gap_entry_from_gap",
        says: "the entry's places are counted from where the gap begins",
        how: Library(gap_entry_from_gap),
    },
    Standin { name: "gap_used_one_more", says: "used grows by 3m+3", how: Library(gap_used_one_more) },
    Standin {
        name: "gap_journal_past_end",
        says: "one word past the journal's end is cleared, where the entry just fits",
        how: Library(gap_journal_past_end),
    },
    Standin {
        name: "gap_journal_cleared",
        says: "the first free journal word after the entry is cleared",
        how: Library(gap_journal_cleared),
    },
    Standin { name: "gap_value_one_less", says: "m is answered as one less", how: Library(gap_value_one_less) },
    Standin { name: "gap_value_kept_on_6", says: "on 6 no value is handed back", how: Library(gap_value_kept_on_6) },
    Standin {
        name: "gap_value_place_on_9",
        says: "on 9 the value is a place and not 0",
        how: Library(gap_value_place_on_9),
    },
];

/// The gap that a call repairs; for another call one of no samples.
fn gap_of(call: Call) -> Gap {
    match call {
        Call::Gap { gap, .. } => gap,
        _ => Gap { start: 0, len: 0 },
    }
}

/// The gap, where it has samples and lies within the recording.
pub(super) fn within(lent: &Lent, call: Call) -> Option<Gap> {
    let (gap, n) = (gap_of(call), lent.samples().len());
    (gap.len > 0 && gap.start < n && gap.len <= n - gap.start).then_some(gap)
}

/// The gap, where its repair was answered with this number.
fn gap_on(number: u32, answered: u32, lent: &Lent, call: Call) -> Option<Gap> {
    within(lent, call).filter(|_| answered == number)
}

/// The places of a gap that lies within the recording.
fn places(gap: Gap) -> Range<usize> {
    gap.start..gap.start + gap.len
}

/// The places that an accepted repair named; none after a refusal.
fn named(number: u32, call: Call) -> Range<usize> {
    if number == 0 {
        places(gap_of(call))
    } else {
        0..0
    }
}

/// The entry that an accepted repair appended; nothing after a refusal.
fn entry(number: u32, lent: &mut Lent, call: Call) -> &mut [u32] {
    match named(number, call).len() {
        0 => &mut [],
        m => {
            let used = lent.used.lent()[0];
            &mut lent.journal.lend()[used - entry_words(m)..used]
        }
    }
}

/// How many journal words are free, where used is within the journal.
fn free(lent: &Lent) -> usize {
    lent.journal.lent().len() - lent.used.lent()[0]
}

/// The value that the last call handed back.
fn value(lent: &mut Lent) -> &mut usize {
    &mut lent.numbers[0].lend()[0]
}

/// The call answers with this number and this value. The order of a refusal is 0.
fn answer(lent: &mut Lent, number: u32, with: usize) -> u32 {
    *value(lent) = with;
    if number != 0 {
        *order(lent) = 0;
    }
    number
}

/// The order that the last call handed back.
pub(super) fn order(lent: &mut Lent) -> &mut u32 {
    &mut lent.order.lend()[0]
}

/// The order of the model of a gap that lies within these samples; 0 for a line.
pub(super) fn model_order(samples: &[u32], gap: Gap) -> u32 {
    if gap.is_line() {
        0
    } else {
        gap.widened(samples).model().reach.order
    }
}

/// What is lent, as it was before a call.
struct Before {
    recording: Recording,
    doubles: Vec<f64>,
}

impl Before {
    fn of(lent: &Lent) -> Before {
        Before { recording: lent.recording(), doubles: lent.doubles.lent().to_vec() }
    }

    /// The call leaves all as it was, and answers with this number and this value.
    fn refuse(&self, lent: &mut Lent, number: u32, with: usize) -> u32 {
        lent.put(&self.recording);
        lent.doubles.lend().copy_from_slice(&self.doubles);
        answer(lent, number, with)
    }
}

/// The context of a gap by model.
fn context(gap: Gap) -> usize {
    (4 * gap.len).max(1024)
}

/// The part of n samples from so many before the gap to so many after it.
fn around(gap: Gap, n: usize, before: usize, after: usize) -> Range<usize> {
    gap.start.saturating_sub(before)..(gap.start + gap.len + after).min(n)
}

/// The window of a gap by model.
fn window(gap: Gap, n: usize) -> Range<usize> {
    around(gap, n, context(gap), context(gap))
}

/// The words that the library writes to a gap by model where there is this part of the recording alone.
fn words_in(samples: &[u32], gap: Gap, part: Range<usize>) -> Option<Vec<u32>> {
    let (there, n) = (Gap { start: gap.start - part.start, len: gap.len }, part.len());
    let journal = vec![0; entry_words(gap.len)];
    let mut lent = Lent::new(&Recording::new(samples[part].to_vec(), vec![0; n], journal, 0));
    lent.lend_doubles(&vec![0; there.needed(n)]);
    let number = lent.call(Call::Gap { gap: there, passes: 1 });
    (number == 0 && !gap.is_line()).then(|| lent.samples()[places(there)].to_vec())
}

/// The results of a gap's repair, whether they are in range or not.
fn results(samples: &[u32], gap: Gap) -> Vec<u32> {
    let floats: Vec<f32> = samples.iter().map(|word| f32::from_bits(*word)).collect();
    original::inpaint_gap(&floats, gap.start, gap.len, 1)[places(gap)].iter().map(|x| x.to_bits()).collect()
}

/// An accepted repair writes these words, if any, in place of its own.
fn with_words(lent: &mut Lent, call: Call, words: impl FnOnce(&[u32], Gap) -> Option<Vec<u32>>) -> u32 {
    let samples = lent.samples().to_vec();
    let number = lent.call(call);
    if let Some(words) = gap_on(0, number, lent, call).and_then(|gap| words(&samples, gap)) {
        lent.samples.lend()[named(number, call)].copy_from_slice(&words);
    }
    number
}

/// An accepted repair by model has another window.
fn with_window(lent: &mut Lent, call: Call, other: fn(Gap, usize) -> Range<usize>) -> u32 {
    with_words(lent, call, |samples, gap| words_in(samples, gap, other(gap, samples.len())))
}

fn gap_window_short_left(lent: &mut Lent, call: Call) -> u32 {
    with_window(lent, call, |gap, n| around(gap, n, context(gap) - 1, context(gap)))
}

fn gap_window_short_right(lent: &mut Lent, call: Call) -> u32 {
    with_window(lent, call, |gap, n| around(gap, n, context(gap), context(gap) - 1))
}

fn gap_window_without_first(lent: &mut Lent, call: Call) -> u32 {
    with_window(lent, call, |gap, n| window(gap, n).start.max(1).min(gap.start)..window(gap, n).end)
}

fn gap_window_without_last(lent: &mut Lent, call: Call) -> u32 {
    with_window(lent, call, |gap, n| window(gap, n).start..window(gap, n).end.min(n - 1).max(gap.start + gap.len))
}

fn gap_context_by_length(lent: &mut Lent, call: Call) -> u32 {
    with_window(lent, call, |gap, n| around(gap, n, 4 * gap.len, 4 * gap.len))
}

fn gap_context_fixed(lent: &mut Lent, call: Call) -> u32 {
    with_window(lent, call, |gap, n| around(gap, n, 1024, 1024))
}

/// The samples beside a gap, each if it exists.
fn beside(samples: &[u32], gap: Gap) -> [Option<f32>; 2] {
    let places = [gap.start.wrapping_sub(1), gap.start + gap.len];
    places.map(|place| samples.get(place).map(|word| f32::from_bits(*word)))
}

/// The two ends of a gap's line: the samples beside it, or 0.
fn ends(samples: &[u32], gap: Gap) -> [f32; 2] {
    beside(samples, gap).map(|x| x.unwrap_or(0.0))
}

/// The part of the way from left to right at which sample i of a line lies.
fn way(i: usize, len: usize) -> f32 {
    (i + 1) as f32 / (len + 1) as f32
}

/// The words of a line between these ends, where this part of the way is done at each sample.
fn line([left, right]: [f32; 2], len: usize, way: fn(usize, usize) -> f32) -> Vec<u32> {
    let at = |t: f32| left * (1.0 - t) + right * t;
    (0..len).map(|i| at(way(i, len)).to_bits()).collect()
}

/// An accepted repair by line writes these words.
fn with_line(lent: &mut Lent, call: Call, words: fn(&[u32], Gap) -> Vec<u32>) -> u32 {
    with_words(lent, call, |samples, gap| gap.is_line().then(|| words(samples, gap)))
}

/// An accepted repair has this mark, in its entry too.
fn mark_as(number: u32, lent: &mut Lent, call: Call, mark: u8) -> u32 {
    lent.marks.lend()[named(number, call)].fill(mark);
    if let Some(word) = entry(number, lent, call).last_mut() {
        *word = mark.into();
    }
    number
}

fn gap_of_2048_by_line(lent: &mut Lent, call: Call) -> u32 {
    let number = gap_of_2048_by_line_marked_1(lent, call);
    if gap_of(call).len == 2048 {
        mark_as(number, lent, call, 2);
    }
    number
}

fn gap_of_2048_by_line_marked_1(lent: &mut Lent, call: Call) -> u32 {
    let number =
        with_words(lent, call, |samples, gap| (gap.len == 2048).then(|| line(ends(samples, gap), gap.len, way)));
    if gap_of(call).len == 2048 {
        *order(lent) = 0;
    }
    number
}

fn gap_of_2048_marked_2(lent: &mut Lent, call: Call) -> u32 {
    let number = lent.call(call);
    if gap_of(call).len == 2048 {
        mark_as(number, lent, call, 2);
    }
    number
}

fn gap_of_2049_marked_1(lent: &mut Lent, call: Call) -> u32 {
    let number = lent.call(call);
    if gap_of(call).len == 2049 {
        mark_as(number, lent, call, 1);
    }
    number
}

fn gap_line_flat_at_ends(lent: &mut Lent, call: Call) -> u32 {
    with_line(lent, call, |samples, gap| {
        let [left, right] = beside(samples, gap);
        let ends = [left.or(right), right.or(left)].map(|x| x.unwrap_or(0.0));
        line(ends, gap.len, way)
    })
}

fn gap_line_from_0(lent: &mut Lent, call: Call) -> u32 {
    with_line(lent, call, |samples, gap| line(ends(samples, gap), gap.len, |i, len| i as f32 / (len + 1) as f32))
}

fn gap_line_by_len(lent: &mut Lent, call: Call) -> u32 {
    with_line(lent, call, |samples, gap| line(ends(samples, gap), gap.len, |i, len| (i + 1) as f32 / len as f32))
}

fn gap_line_by_difference(lent: &mut Lent, call: Call) -> u32 {
    with_line(lent, call, |samples, gap| {
        let [left, right] = ends(samples, gap);
        (0..gap.len).map(|i| (left + (right - left) * way(i, gap.len)).to_bits()).collect()
    })
}

fn gap_line_in_doubles(lent: &mut Lent, call: Call) -> u32 {
    with_line(lent, call, |samples, gap| {
        let [left, right] = ends(samples, gap).map(f64::from);
        let way = |i: usize| (i + 1) as f64 / (gap.len + 1) as f64;
        (0..gap.len).map(|i| ((left * (1.0 - way(i)) + right * way(i)) as f32).to_bits()).collect()
    })
}

fn gap_result_cut(lent: &mut Lent, call: Call) -> u32 {
    let number = lent.call(call);
    let by_model = !gap_of(call).is_line() && gap_of(call).len > 128;
    if let Some(word) = lent.samples.lend()[named(number, call)].last_mut() {
        *word -= u32::from(by_model && *word << 1 != 0);
    }
    number
}

fn gap_minus_zero_lost(lent: &mut Lent, call: Call) -> u32 {
    let number = lent.call(call);
    for word in &mut lent.samples.lend()[named(number, call)] {
        *word = if *word == 0x8000_0000 { 0 } else { *word };
    }
    number
}

fn gap_no_pass(lent: &mut Lent, call: Call) -> u32 {
    let samples = lent.samples().to_vec();
    let number = lent.call(call);
    if matches!(call, Call::Gap { passes: 0, .. }) {
        lent.samples.lend().copy_from_slice(&samples);
    }
    number
}

fn gap_last_not_written(lent: &mut Lent, call: Call) -> u32 {
    let samples = lent.samples().to_vec();
    let number = lent.call(call);
    if let Some(last) = named(number, call).last() {
        lent.samples.lend()[last] = samples[last];
    }
    number
}

fn gap_last_not_marked(lent: &mut Lent, call: Call) -> u32 {
    let marks = lent.marks.lent().to_vec();
    let number = lent.call(call);
    if let Some(last) = named(number, call).last() {
        lent.marks.lend()[last] = marks[last];
    }
    number
}

fn gap_first_not_marked(lent: &mut Lent, call: Call) -> u32 {
    let marks = lent.marks.lent().to_vec();
    let number = lent.call(call);
    if let Some(first) = named(number, call).next() {
        lent.marks.lend()[first] = marks[first];
    }
    number
}

fn gap_model_marked_2(lent: &mut Lent, call: Call) -> u32 {
    let number = lent.call(call);
    lent.marks.lend()[named(number, call)].fill(2);
    number
}

fn gap_sample_after_changed(lent: &mut Lent, call: Call) -> u32 {
    let number = lent.call(call);
    if let Some(gap) = gap_on(0, number, lent, call) {
        if let Some(word) = lent.samples.lend().get_mut(gap.start + gap.len) {
            *word ^= 1;
        }
    }
    number
}

fn gap_sample_after_marked(lent: &mut Lent, call: Call) -> u32 {
    let number = lent.call(call);
    if let Some(gap) = gap_on(0, number, lent, call) {
        if let Some(mark) = lent.marks.lend().get_mut(gap.start + gap.len) {
            *mark = gap.mark();
        }
    }
    number
}

fn gap_sample_past_end(lent: &mut Lent, call: Call) -> u32 {
    let number = lent.call(call);
    let n = lent.samples().len();
    if named(number, call).last().map(|last| last + 1) == Some(n) {
        lent.samples.whole[GUARDS + n] = 0;
    }
    number
}

fn gap_mark_before_start(lent: &mut Lent, call: Call) -> u32 {
    let number = lent.call(call);
    if named(number, call).next() == Some(0) {
        lent.marks.whole[GUARDS - 1] = gap_of(call).mark();
    }
    number
}

fn gap_7_from_window(lent: &mut Lent, call: Call) -> u32 {
    let number = lent.call(call);
    if let Some(gap) = gap_on(7, number, lent, call).filter(|gap| !gap.is_line()) {
        *value(lent) -= window(gap, lent.samples().len()).start;
    }
    number
}

fn gap_7_highest(lent: &mut Lent, call: Call) -> u32 {
    let number = lent.call(call);
    if let Some(gap) = gap_on(7, number, lent, call) {
        let samples = lent.samples();
        let highest = gap.read(samples.len()).filter(|place| !in_range(samples[*place])).last();
        *value(lent) = highest.unwrap_or(0);
    }
    number
}

/// Refusal 7 is given for this place too, if any, unless a lower number or place is answered.
fn reads_too(lent: &mut Lent, call: Call, here: fn(&[u32], Gap) -> Option<usize>) -> u32 {
    let before = Before::of(lent);
    let number = lent.call(call);
    let found = within(lent, call).and_then(|gap| here(&before.recording.samples, gap));
    match (number, found) {
        (0 | 8 | 9, Some(place)) => before.refuse(lent, 7, place),
        (7, Some(place)) if place < *value(lent) => answer(lent, 7, place),
        _ => number,
    }
}

/// The lowest of these places whose sample is not in range.
fn first_refused(samples: &[u32], mut among: impl Iterator<Item = usize>) -> Option<usize> {
    among.find(|place| !in_range(samples[*place]))
}

fn gap_7_in_gap(lent: &mut Lent, call: Call) -> u32 {
    reads_too(lent, call, |samples, gap| first_refused(samples, places(gap)))
}

fn gap_7_before_window(lent: &mut Lent, call: Call) -> u32 {
    reads_too(lent, call, |samples, gap| {
        let longer = around(gap, samples.len(), context(gap) + 1, context(gap));
        first_refused(samples, longer.start..window(gap, samples.len()).start).filter(|_| !gap.is_line())
    })
}

fn gap_7_after_window(lent: &mut Lent, call: Call) -> u32 {
    reads_too(lent, call, |samples, gap| {
        let longer = around(gap, samples.len(), context(gap), context(gap) + 1);
        first_refused(samples, window(gap, samples.len()).end..longer.end).filter(|_| !gap.is_line())
    })
}

fn gap_7_at_65536(lent: &mut Lent, call: Call) -> u32 {
    reads_too(lent, call, |samples, gap| gap.read(samples.len()).find(|place| is_65536(samples[*place])))
}

/// Whether it is the word of a sample of magnitude 65,536.
fn is_65536(word: u32) -> bool {
    f32::from_bits(word).abs() == 65536.0
}

/// The library is asked with a 0 at this place, if any, and the sample returns after it.
fn reads_not(lent: &mut Lent, call: Call, here: fn(&[u32], Gap) -> Option<usize>) -> u32 {
    match within(lent, call).and_then(|gap| here(lent.samples(), gap)) {
        Some(place) => {
            let word = mem::replace(&mut lent.samples.lend()[place], 0);
            let number = lent.call(call);
            lent.samples.lend()[place] = word;
            number
        }
        None => lent.call(call),
    }
}

/// The place, where it is within the window of a gap by model and outside the gap, and its sample is not in range.
fn refused_in_window(samples: &[u32], gap: Gap, place: usize) -> Option<usize> {
    let is_read = !gap.is_line() && !places(gap).contains(&place);
    (is_read && !in_range(samples[place])).then_some(place)
}

fn gap_7_not_first(lent: &mut Lent, call: Call) -> u32 {
    reads_not(lent, call, |samples, gap| {
        let first = window(gap, samples.len()).start;
        refused_in_window(samples, gap, first).filter(|_| first > 0)
    })
}

fn gap_7_not_last(lent: &mut Lent, call: Call) -> u32 {
    reads_not(lent, call, |samples, gap| {
        let end = window(gap, samples.len()).end;
        refused_in_window(samples, gap, end - 1).filter(|_| end < samples.len())
    })
}

fn gap_7_line_not_right(lent: &mut Lent, call: Call) -> u32 {
    reads_not(lent, call, |samples, gap| {
        let after = gap.start + gap.len;
        first_refused(samples, after..samples.len().min(after + 1)).filter(|_| gap.is_line())
    })
}

fn gap_7_not_above_65536(lent: &mut Lent, call: Call) -> u32 {
    reads_not(lent, call, |samples, gap| gap.read(samples.len()).find(|place| samples[*place] == 0x4780_0001))
}

fn gap_8_from_gap(lent: &mut Lent, call: Call) -> u32 {
    let number = lent.call(call);
    if let Some(gap) = gap_on(8, number, lent, call) {
        *value(lent) -= gap.start;
    }
    number
}

fn gap_8_last(lent: &mut Lent, call: Call) -> u32 {
    let number = lent.call(call);
    if let Some(gap) = gap_on(8, number, lent, call) {
        let last = results(lent.samples(), gap).into_iter().rposition(|word| !in_range(word));
        *value(lent) = gap.start + last.unwrap_or(0);
    }
    number
}

fn gap_8_at_65536(lent: &mut Lent, call: Call) -> u32 {
    let before = lent.recording();
    let number = lent.call(call);
    let found = named(number, call).find(|place| is_65536(lent.samples()[*place]));
    match found {
        Some(place) => {
            lent.put(&before);
            answer(lent, 8, place)
        }
        None => number,
    }
}

/// The repair is accepted with these words, for which the journal has room: it is that of as many zeros, but for them.
fn accept(lent: &mut Lent, gap: Gap, words: &[u32]) -> u32 {
    let mut recording = lent.recording();
    let zeros: Vec<(usize, u32)> = places(gap).map(|place| (place, 0)).collect();
    let accepted = recording.commit(gap.mark(), &zeros);
    *order(lent) = model_order(&recording.samples, gap);
    recording.samples[places(gap)].copy_from_slice(words);
    lent.put(&recording);
    answer(lent, accepted.number(), accepted.value())
}

fn gap_8_not_given(lent: &mut Lent, call: Call) -> u32 {
    let number = lent.call(call);
    match gap_on(8, number, lent, call) {
        Some(gap) if free(lent) < entry_words(gap.len) => answer(lent, 9, 0),
        Some(gap) => {
            let words = results(lent.samples(), gap);
            accept(lent, gap, &words)
        }
        None => number,
    }
}

fn gap_8_written(lent: &mut Lent, call: Call) -> u32 {
    let number = lent.call(call);
    if let Some(gap) = gap_on(8, number, lent, call) {
        let words = results(lent.samples(), gap);
        let told = *value(lent);
        lent.samples.lend()[gap.start..told].copy_from_slice(&words[..told - gap.start]);
    }
    number
}

fn gap_2_before_1(lent: &mut Lent, call: Call) -> u32 {
    let number = lent.call(call);
    if number == 1 && lent.samples().len() > MOST_SAMPLES {
        2
    } else {
        number
    }
}

fn gap_2_at_most(lent: &mut Lent, call: Call) -> u32 {
    let before = Before::of(lent);
    let number = lent.call(call);
    if ![1, 14].contains(&number) && lent.samples().len() == MOST_SAMPLES {
        before.refuse(lent, 2, 0)
    } else {
        number
    }
}

fn gap_3_at_journal_end(lent: &mut Lent, call: Call) -> u32 {
    let before = Before::of(lent);
    let number = lent.call(call);
    if (4..14).contains(&number) && before.recording.used == before.recording.journal.len() {
        before.refuse(lent, 3, 0)
    } else {
        number
    }
}

fn gap_5_before_3(lent: &mut Lent, call: Call) -> u32 {
    let number = lent.call(call);
    if number == 3 && within(lent, call).is_none() {
        5
    } else {
        number
    }
}

/// Whether 5 is answered for a gap that has samples and starts within the recording.
fn is_past_end(number: u32, lent: &Lent, gap: Gap) -> bool {
    number == 5 && gap.len > 0 && gap.start < lent.samples().len()
}

fn gap_5_not_past_end(lent: &mut Lent, call: Call) -> u32 {
    let number = lent.call(call);
    if is_past_end(number, lent, gap_of(call)) {
        6
    } else {
        number
    }
}

fn gap_5_end_wraps(lent: &mut Lent, call: Call) -> u32 {
    let number = lent.call(call);
    let gap = gap_of(call);
    if is_past_end(number, lent, gap) && gap.start.wrapping_add(gap.len) <= lent.samples().len() {
        6
    } else {
        number
    }
}

fn gap_5_not_of_length_0(lent: &mut Lent, call: Call) -> u32 {
    let number = lent.call(call);
    if number == 5 && gap_of(call).len == 0 && gap_of(call).start < lent.samples().len() {
        0
    } else {
        number
    }
}

fn gap_6_before_5(lent: &mut Lent, call: Call) -> u32 {
    let number = lent.call(call);
    let (gap, n) = (gap_of(call), lent.samples().len());
    let needed = if gap.is_line() || gap.start <= n { gap.needed(n) } else { 0 };
    if number == 5 && lent.doubles.lent().len() < needed {
        6
    } else {
        number
    }
}

fn gap_6_before_5_near_end(lent: &mut Lent, call: Call) -> u32 {
    let number = lent.call(call);
    let (gap, n) = (gap_of(call), lent.samples().len());
    if is_past_end(number, lent, gap) && gap.len <= n && lent.doubles.lent().len() < gap.needed(n) {
        6
    } else {
        number
    }
}

fn gap_6_one_fewer(lent: &mut Lent, call: Call) -> u32 {
    let number = lent.call(call);
    let (kept, n) = (lent.doubles.lent().to_vec(), lent.samples().len());
    if gap_on(6, number, lent, call).map(|gap| gap.needed(n)) != Some(kept.len() + 1) {
        return number;
    }
    lent.lend_doubles(&vec![0; kept.len() + 1]);
    let number = lent.call(call);
    lent.lend_doubles(&vec![0; kept.len()]);
    if number == 7 {
        lent.doubles.lend().copy_from_slice(&kept);
    }
    number
}

fn gap_6_one_more(lent: &mut Lent, call: Call) -> u32 {
    let before = Before::of(lent);
    let number = lent.call(call);
    let n = lent.samples().len();
    if !matches!(number, 0 | 6..=9) || within(lent, call).map(|gap| gap.needed(n)) != Some(before.doubles.len()) {
        return number;
    }
    before.refuse(lent, 6, 0)
}

fn gap_7_before_6(lent: &mut Lent, call: Call) -> u32 {
    let number = lent.call(call);
    let samples = lent.samples();
    match gap_on(6, number, lent, call).and_then(|gap| first_refused(samples, gap.read(samples.len()))) {
        Some(place) => answer(lent, 7, place),
        None => number,
    }
}

fn gap_9_before_8(lent: &mut Lent, call: Call) -> u32 {
    let number = lent.call(call);
    match gap_on(8, number, lent, call) {
        Some(gap) if free(lent) < entry_words(gap.len) => answer(lent, 9, 0),
        _ => number,
    }
}

fn gap_9_one_fewer(lent: &mut Lent, call: Call) -> u32 {
    let number = lent.call(call);
    match gap_on(9, number, lent, call) {
        Some(gap) if free(lent) + 1 == entry_words(gap.len) => {
            *order(lent) = model_order(lent.samples(), gap);
            answer(lent, 0, gap.len)
        }
        _ => number,
    }
}

fn gap_9_one_more(lent: &mut Lent, call: Call) -> u32 {
    let before = lent.recording();
    let number = lent.call(call);
    match gap_on(0, number, lent, call) {
        Some(_) if free(lent) == 0 => {
            lent.put(&before);
            answer(lent, 9, 0)
        }
        _ => number,
    }
}

fn gap_9_written(lent: &mut Lent, call: Call) -> u32 {
    let number = lent.call(call);
    if let Some(gap) = gap_on(9, number, lent, call) {
        let words = results(lent.samples(), gap);
        lent.samples.lend()[places(gap)].copy_from_slice(&words);
    }
    number
}

fn gap_9_marked(lent: &mut Lent, call: Call) -> u32 {
    let number = lent.call(call);
    if let Some(gap) = gap_on(9, number, lent, call) {
        lent.marks.lend()[places(gap)].fill(gap.mark());
    }
    number
}

/// The workspace keeps its contents after this answer.
fn keeps_workspace(lent: &mut Lent, call: Call, after: u32) -> u32 {
    let doubles = lent.doubles.lent().to_vec();
    let number = lent.call(call);
    if number == after {
        lent.doubles.lend().copy_from_slice(&doubles);
    }
    number
}

fn gap_workspace_kept(lent: &mut Lent, call: Call) -> u32 {
    keeps_workspace(lent, call, 0)
}

fn gap_workspace_kept_on_8(lent: &mut Lent, call: Call) -> u32 {
    keeps_workspace(lent, call, 8)
}

fn gap_workspace_kept_on_9(lent: &mut Lent, call: Call) -> u32 {
    keeps_workspace(lent, call, 9)
}

fn gap_workspace_cleared_on_6(lent: &mut Lent, call: Call) -> u32 {
    let number = lent.call(call);
    if number == 6 {
        lent.doubles.lend().fill(0.0);
    }
    number
}

fn gap_workspace_cleared_on_7(lent: &mut Lent, call: Call) -> u32 {
    let number = lent.call(call);
    if let Some(gap) = gap_on(7, number, lent, call) {
        let needed = gap.needed(lent.samples().len());
        lent.doubles.lend()[..needed].fill(0.0);
    }
    number
}

fn gap_workspace_one_far(lent: &mut Lent, call: Call) -> u32 {
    let number = lent.call(call);
    if let Some(gap) = gap_on(0, number, lent, call) {
        let needed = gap.needed(lent.samples().len());
        if let Some(double) = lent.doubles.lend().get_mut(needed) {
            *double = 0.0;
        }
    }
    number
}

fn gap_workspace_past_end(lent: &mut Lent, call: Call) -> u32 {
    let number = lent.call(call);
    if let Some(gap) = gap_on(0, number, lent, call) {
        let needed = gap.needed(lent.samples().len());
        if lent.doubles.lent().len() == needed {
            lent.doubles.whole[GUARDS + needed] = 0.0;
        }
    }
    number
}

fn gap_workspace_one_short(lent: &mut Lent, call: Call) -> u32 {
    let doubles = lent.doubles.lent().to_vec();
    let number = lent.call(call);
    if let Some(gap) = gap_on(0, number, lent, call) {
        let last = gap.needed(lent.samples().len()) - 1;
        lent.doubles.lend()[last] = doubles[last];
    }
    number
}

fn gap_workspace_minus_zero(lent: &mut Lent, call: Call) -> u32 {
    let number = lent.call(call);
    if let Some(gap) = gap_on(0, number, lent, call) {
        let last = gap.needed(lent.samples().len()) - 1;
        lent.doubles.lend()[last] = -0.0;
    }
    number
}

fn gap_entry_new_words(lent: &mut Lent, call: Call) -> u32 {
    let number = lent.call(call);
    let words = lent.samples()[named(number, call)].to_vec();
    for (of, word) in entry(number, lent, call).chunks_exact_mut(3).zip(words) {
        of[1] = word;
    }
    number
}

fn gap_entry_new_marks(lent: &mut Lent, call: Call) -> u32 {
    let number = lent.call(call);
    for of in entry(number, lent, call).chunks_exact_mut(3) {
        of[2] = gap_of(call).mark().into();
    }
    number
}

fn gap_entry_m_less(lent: &mut Lent, call: Call) -> u32 {
    let number = lent.call(call);
    let at = 3 * named(number, call).len();
    if let Some(m) = entry(number, lent, call).get_mut(at) {
        *m -= 1;
    }
    number
}

fn gap_entry_mark_2(lent: &mut Lent, call: Call) -> u32 {
    let number = lent.call(call);
    if let Some(mark) = entry(number, lent, call).last_mut() {
        *mark = 2;
    }
    number
}

fn gap_entry_descends(lent: &mut Lent, call: Call) -> u32 {
    let number = lent.call(call);
    let entry = entry(number, lent, call);
    let descending: Vec<u32> = entry.chunks_exact(3).rev().flatten().copied().collect();
    entry[..descending.len()].copy_from_slice(&descending);
    number
}

fn gap_entry_from_gap(lent: &mut Lent, call: Call) -> u32 {
    let number = lent.call(call);
    for of in entry(number, lent, call).chunks_exact_mut(3) {
        of[0] -= gap_of(call).start as u32;
    }
    number
}

fn gap_used_one_more(lent: &mut Lent, call: Call) -> u32 {
    let number = lent.call(call);
    lent.used.lend()[0] += usize::from(number == 0);
    number
}

fn gap_journal_past_end(lent: &mut Lent, call: Call) -> u32 {
    let number = lent.call(call);
    let used = lent.used.lent()[0];
    if number == 0 && used == lent.journal.lent().len() {
        lent.journal.whole[GUARDS + used] = 0;
    }
    number
}

fn gap_journal_cleared(lent: &mut Lent, call: Call) -> u32 {
    let number = lent.call(call);
    let used = lent.used.lent()[0];
    if let (0, Some(word)) = (number, lent.journal.lend().get_mut(used)) {
        *word = 0;
    }
    number
}

fn gap_value_one_less(lent: &mut Lent, call: Call) -> u32 {
    let number = lent.call(call);
    *value(lent) -= usize::from(number == 0);
    number
}

fn gap_value_kept_on_6(lent: &mut Lent, call: Call) -> u32 {
    let before = *value(lent);
    let number = lent.call(call);
    if number == 6 {
        *value(lent) = before;
    }
    number
}

fn gap_value_place_on_9(lent: &mut Lent, call: Call) -> u32 {
    let number = lent.call(call);
    if let Some(gap) = gap_on(9, number, lent, call) {
        *value(lent) = gap.start;
    }
    number
}
