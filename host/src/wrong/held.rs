//! Stand-ins for the automatic scan that are wrong in what request P1 of document 02 says of held words, each made of
//! repairs of single gaps.
use super::scans::{allowed, answer_of, held_gaps, in_order, lost_runs, qualifying, repair, with_runs};
use super::How::Library;
use super::{Finds, Standin, Table};
use crate::call::Call;
use crate::inpaint::{held, is_lost, limit, lost, qualified, Gap, HELD_RUN, LOST_RUN};
use crate::lent::Lent;
use crate::recording::{in_range, not_measured, BLOCK};

pub(super) const TABLES: &[Table] =
    &[Table { file: "inpaint", test: "held_words", finds: Finds::Always, standins: STANDINS }];

const STANDINS: &[Standin] = &[
    Standin { name: "held_none", says: "no word is held, as in the original", how: Library(held_none) },
    Standin { name: "held_15", says: "15 equal words are a dropout", how: Library(held_15) },
    Standin { name: "held_17", says: "16 equal words are sound", how: Library(held_17) },
    Standin {
        name: "held_first_in_gap",
        says: "the first sample of a held run belongs to the gap",
        how: Library(held_first_in_gap),
    },
    Standin { name: "held_last_stays", says: "the last sample stays too", how: Library(held_last_stays) },
    Standin {
        name: "held_last_for_first",
        says: "the last sample stays and the first does not",
        how: Library(held_last_for_first),
    },
    Standin { name: "held_two_stay", says: "the first two samples stay", how: Library(held_two_stay) },
    Standin {
        name: "held_run_in_limit",
        says: "the run's length is held to the limit, and not the gap's",
        how: Library(held_run_in_limit),
    },
    Standin { name: "held_no_limit", says: "a held run may have any length", how: Library(held_no_limit) },
    Standin {
        name: "held_cut_at_limit",
        says: "of a gap longer than the limit the first samples qualify",
        how: Library(held_cut_at_limit),
    },
    Standin { name: "held_at_end", says: "a held run that reaches the end qualifies", how: Library(held_at_end) },
    Standin {
        name: "held_not_at_start",
        says: "a held run from place 0 on does not qualify",
        how: Library(held_not_at_start),
    },
    Standin {
        name: "held_in_sixteens",
        says: "each 16 words of a held run are a run of their own",
        how: Library(held_in_sixteens),
    },
    Standin { name: "held_zeros", says: "16 equal zeros are held, and their first stays", how: Library(held_zeros) },
    Standin { name: "held_nan", says: "16 equal NaN are held, and their first stays", how: Library(held_nan) },
    Standin { name: "held_too_loud", says: "words out of range are held too", how: Library(held_too_loud) },
    Standin {
        name: "held_not_loudest",
        says: "65,536 and its negative count as out of range",
        how: Library(held_not_loudest),
    },
    Standin { name: "held_no_subnormal", says: "a subnormal word counts as zero", how: Library(held_no_subnormal) },
    Standin { name: "held_by_magnitude", says: "a word and its negative are equal", how: Library(held_by_magnitude) },
    Standin {
        name: "held_but_last_digit",
        says: "words that differ in the last digit are equal",
        how: Library(held_but_last_digit),
    },
    Standin {
        name: "held_joined_to_zeros",
        says: "a held run directly behind zeros or NaN is one gap with them",
        how: Library(held_joined_to_zeros),
    },
    Standin {
        name: "held_first_lost_behind_zeros",
        says: "directly behind zeros or NaN the first sample belongs to the gap",
        how: Library(held_first_lost_behind_zeros),
    },
    Standin {
        name: "held_not_beside_zeros",
        says: "a held run directly before zeros or NaN does not qualify",
        how: Library(held_not_beside_zeros),
    },
    Standin {
        name: "held_looks_back",
        says: "a run begins only where the word before it, as it then stands, does not continue",
        how: Library(held_looks_back),
    },
    Standin {
        name: "held_found_again",
        says: "the search goes on within the gap that was filled",
        how: Library(held_found_again),
    },
    Standin {
        name: "held_reads_raw",
        says: "every fill reads the recording as the call began",
        how: Library(held_reads_raw),
    },
    Standin {
        name: "held_first_marked",
        says: "the first sample of a held run is marked as well",
        how: Library(held_first_marked),
    },
    Standin { name: "held_as_line", says: "the gap of a held run is marked as a line", how: Library(held_as_line) },
];

/// A scan whose gaps of held words are what this makes of the samples and the limit.
fn with_held(lent: &mut Lent, call: Call, gaps: fn(&[u32], usize) -> Vec<Gap>) -> u32 {
    with_runs(lent, call, |samples, settings| {
        let most = limit(settings);
        in_order(qualifying(lost_runs(samples), samples.len(), most), gaps(samples, most))
    })
}

/// A scan whose gaps of held words are those that this makes of each right one, where they are within the limit and
/// touch neither end.
fn with_each(lent: &mut Lent, call: Call, other: fn(Gap) -> Gap) -> u32 {
    with_runs(lent, call, |samples, settings| {
        let gaps = held_gaps(samples, settings).into_iter().map(other).collect();
        qualifying(in_order(lost_runs(samples), gaps), samples.len(), limit(settings))
    })
}

/// The gaps of the runs of 16 or more words, each like the one before it, of words that are so.
fn held_where(samples: &[u32], so: fn(u32) -> bool, like: fn(u32, u32) -> bool) -> Vec<Gap> {
    let mut gaps = Vec::new();
    let mut start = 0;
    while start < samples.len() {
        let alike = samples[start..].windows(2).take_while(|two| like(two[0], two[1]));
        let len = 1 + alike.count();
        if len >= HELD_RUN && so(samples[start]) {
            gaps.push(Gap { start: start + 1, len: len - 1 });
        }
        start += len;
    }
    gaps
}

fn is_held(word: u32) -> bool {
    in_range(word) && !is_lost(word)
}

/// A scan in which words that are so are held.
fn with_words(lent: &mut Lent, call: Call, so: fn(u32) -> bool, like: fn(u32, u32) -> bool) -> u32 {
    with_runs(lent, call, |samples, settings| {
        let gaps = held_where(samples, so, like);
        let apart = |run: &Gap| gaps.iter().all(|gap| run.end() < gap.start || gap.end() <= run.start);
        let zeros = lost_runs(samples).into_iter().filter(apart).collect();
        qualifying(in_order(zeros, gaps.clone()), samples.len(), limit(settings))
    })
}

fn held_none(lent: &mut Lent, call: Call) -> u32 {
    with_held(lent, call, |_, _| Vec::new())
}

fn held_15(lent: &mut Lent, call: Call) -> u32 {
    with_held(lent, call, |samples, most| qualifying(held(samples, HELD_RUN - 1), samples.len(), most))
}

fn held_17(lent: &mut Lent, call: Call) -> u32 {
    with_held(lent, call, |samples, most| qualifying(held(samples, HELD_RUN + 1), samples.len(), most))
}

fn held_first_in_gap(lent: &mut Lent, call: Call) -> u32 {
    with_each(lent, call, |gap| Gap { start: gap.start - 1, len: gap.len + 1 })
}

fn held_last_stays(lent: &mut Lent, call: Call) -> u32 {
    with_each(lent, call, |gap| Gap { start: gap.start, len: gap.len - 1 })
}

fn held_last_for_first(lent: &mut Lent, call: Call) -> u32 {
    with_each(lent, call, |gap| Gap { start: gap.start - 1, len: gap.len })
}

fn held_two_stay(lent: &mut Lent, call: Call) -> u32 {
    with_each(lent, call, |gap| Gap { start: gap.start + 1, len: gap.len - 1 })
}

fn held_run_in_limit(lent: &mut Lent, call: Call) -> u32 {
    with_held(lent, call, |samples, most| qualifying(held(samples, HELD_RUN), samples.len(), most - 1))
}

fn held_no_limit(lent: &mut Lent, call: Call) -> u32 {
    with_held(lent, call, |samples, _| qualifying(held(samples, HELD_RUN), samples.len(), usize::MAX))
}

fn held_cut_at_limit(lent: &mut Lent, call: Call) -> u32 {
    with_held(lent, call, |samples, most| {
        let gaps = qualifying(held(samples, HELD_RUN), samples.len(), usize::MAX);
        gaps.into_iter().map(|gap| Gap { start: gap.start, len: gap.len.min(most) }).collect()
    })
}

fn held_at_end(lent: &mut Lent, call: Call) -> u32 {
    with_held(lent, call, |samples, most| qualifying(held(samples, HELD_RUN), samples.len() + 1, most))
}

fn held_not_at_start(lent: &mut Lent, call: Call) -> u32 {
    with_held(lent, call, |samples, most| {
        let mut gaps = qualifying(held(samples, HELD_RUN), samples.len(), most);
        gaps.retain(|gap| gap.start > 1);
        gaps
    })
}

fn held_in_sixteens(lent: &mut Lent, call: Call) -> u32 {
    with_held(lent, call, |samples, most| {
        let mut gaps = Vec::new();
        for gap in held(samples, HELD_RUN) {
            for turn in 0..(gap.len + 1) / HELD_RUN {
                gaps.push(Gap { start: gap.start + turn * HELD_RUN, len: HELD_RUN - 1 });
            }
        }
        qualifying(gaps, samples.len(), most)
    })
}

fn held_zeros(lent: &mut Lent, call: Call) -> u32 {
    with_words(lent, call, |word| is_held(word) || word << 1 == 0, |x, y| x == y)
}

fn held_nan(lent: &mut Lent, call: Call) -> u32 {
    with_words(lent, call, |word| is_held(word) || f32::from_bits(word).is_nan(), |x, y| x == y)
}

fn held_too_loud(lent: &mut Lent, call: Call) -> u32 {
    with_words(lent, call, |word| !is_lost(word), |x, y| x == y)
}

fn held_not_loudest(lent: &mut Lent, call: Call) -> u32 {
    with_words(lent, call, |word| is_held(word) && f32::from_bits(word).abs() < 65536.0, |x, y| x == y)
}

fn held_no_subnormal(lent: &mut Lent, call: Call) -> u32 {
    with_words(lent, call, |word| is_held(word) && !f32::from_bits(word).is_subnormal(), |x, y| x == y)
}

fn held_by_magnitude(lent: &mut Lent, call: Call) -> u32 {
    with_words(lent, call, is_held, |x, y| x << 1 == y << 1)
}

fn held_but_last_digit(lent: &mut Lent, call: Call) -> u32 {
    with_words(lent, call, is_held, |x, y| x | 1 == y | 1)
}

/// Whether a run of zeros or NaN, of any length, ends where a held run begins.
fn is_behind(gap: &Gap, zeros: &Gap) -> bool {
    zeros.end() + 1 == gap.start
}

fn held_joined_to_zeros(lent: &mut Lent, call: Call) -> u32 {
    with_runs(lent, call, |samples, settings| {
        let mut runs = lost(samples);
        for gap in held(samples, HELD_RUN) {
            match runs.iter_mut().find(|zeros| is_behind(&gap, zeros)) {
                Some(zeros) => zeros.len += 1 + gap.len,
                None => runs.push(gap),
            }
        }
        runs.retain(|run| run.len >= LOST_RUN);
        qualifying(in_order(runs, Vec::new()), samples.len(), limit(settings))
    })
}

fn held_first_lost_behind_zeros(lent: &mut Lent, call: Call) -> u32 {
    with_held(lent, call, |samples, most| {
        let mut gaps = held(samples, HELD_RUN);
        for gap in &mut gaps {
            if gap.start > 1 && is_lost(samples[gap.start - 2]) {
                *gap = Gap { start: gap.start - 1, len: gap.len + 1 };
            }
        }
        qualifying(gaps, samples.len(), most)
    })
}

fn held_not_beside_zeros(lent: &mut Lent, call: Call) -> u32 {
    with_held(lent, call, |samples, most| {
        let mut gaps = qualifying(held(samples, HELD_RUN), samples.len(), most);
        gaps.retain(|gap| !is_lost(samples[gap.end()]));
        gaps
    })
}

/// Whether a word continues the run of the one before it.
fn continues(before: u32, word: u32) -> bool {
    is_lost(before) && is_lost(word) || before == word && is_held(word)
}

/// The gap of the first run that qualifies and begins at place `from` or behind it. At `from` none begins where the word
/// before it continues, if that has a say.
fn next(samples: &[u32], most: usize, from: usize, looks_back: bool) -> Option<Gap> {
    let begins = |place: &usize| {
        let has_say = *place > from || looks_back && *place > 0;
        !(has_say && continues(samples[*place - 1], samples[*place]))
    };
    // A run that is no dropout has no gap.
    let gap_at = |place: usize| {
        let alike = samples[place..].windows(2).take_while(|two| continues(two[0], two[1]));
        let len = 1 + alike.count();
        if is_held(samples[place]) {
            Gap { start: place + 1, len: if len < HELD_RUN { 0 } else { len - 1 } }
        } else {
            Gap { start: place, len: if is_lost(samples[place]) { len } else { 0 } }
        }
    };
    let gaps = (from..samples.len()).filter(begins).map(gap_at).filter(|gap| gap.len >= LOST_RUN);
    qualifying(gaps.collect(), samples.len(), most).first().copied()
}

/// A scan that looks for one run after the other as the recording then stands, each from where this says of the gap
/// before.
fn searching(lent: &mut Lent, call: Call, looks_back: bool, on: fn(Gap) -> usize) -> u32 {
    let settings = match allowed(lent, call) {
        Some(settings) => settings,
        None => return lent.call(call),
    };
    let mut numbers = Vec::new();
    let mut from = 0;
    while let Some(gap) = next(lent.samples(), limit(settings), from, looks_back) {
        numbers.extend(repair(lent, &[gap]));
        from = on(gap);
    }
    answer_of(lent, &numbers)
}

fn held_looks_back(lent: &mut Lent, call: Call) -> u32 {
    searching(lent, call, true, Gap::end)
}

fn held_found_again(lent: &mut Lent, call: Call) -> u32 {
    searching(lent, call, false, |gap| gap.start + 1)
}

fn held_reads_raw(lent: &mut Lent, call: Call) -> u32 {
    let settings = match allowed(lent, call) {
        Some(settings) => settings,
        None => return lent.call(call),
    };
    let before = lent.samples().to_vec();
    let mut after = before.clone();
    let mut numbers = Vec::new();
    for gap in qualified(&before, settings).unwrap_or_default() {
        lent.samples.lend().copy_from_slice(&before);
        numbers.extend(repair(lent, &[gap]));
        let places = gap.start..gap.end();
        after[places.clone()].copy_from_slice(&lent.samples()[places]);
    }
    lent.samples.lend().copy_from_slice(&after);
    answer_of(lent, &numbers)
}

/// A scan that sets the marks of places that this names of a held gap, if the gap was repaired, to this mark. The counts
/// follow.
fn marking(lent: &mut Lent, call: Call, places: fn(Gap) -> std::ops::Range<usize>, mark: u8) -> u32 {
    let before = lent.recording();
    let number = lent.call(call);
    let after = lent.recording();
    for gap in held(&before.samples, HELD_RUN) {
        let was_repaired = after.used > before.used && after.marks[gap.start] == gap.mark();
        if was_repaired && before.marks[gap.start] != gap.mark() {
            lent.marks.lend()[places(gap)].fill(mark);
        }
    }
    let marks = lent.marks.lent().to_vec();
    let blocks = marks.chunks(BLOCK).zip(after.marks.chunks(BLOCK));
    for (count, (marks, _)) in lent.counts.lend().iter_mut().zip(blocks).filter(|(_, (now, then))| now != then) {
        *count = not_measured(marks);
    }
    number
}

fn held_first_marked(lent: &mut Lent, call: Call) -> u32 {
    marking(lent, call, |gap| gap.start - 1..gap.start, 1)
}

fn held_as_line(lent: &mut Lent, call: Call) -> u32 {
    marking(lent, call, |gap| gap.start..gap.end(), 2)
}
