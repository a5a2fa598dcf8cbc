//! Stand-ins for the question whether a span was measured: for the library's answer, for both sides' alike, and for the
//! calls before it, alike on both sides.
use super::counts::{
    open_clears_counts, open_keeps_counts, repair_counts_first_block, repair_keeps_counts, undo_keeps_counts,
};
use super::How::{Alike, Asked, BothAsked};
use super::{Finds, Standin, Table};
use crate::lent::{Lent, GUARDS, YES_BEFORE};
use crate::question::{by_each_mark, refused, told, Span, Told};
use crate::recording::{blocks, counted, is_made, BLOCK, MOST_SAMPLES, NOT_RECEIVED};
use std::ops::Range;

pub(super) const TABLES: &[Table] = &[
    Table { file: "question", test: "on_reached_states", finds: Finds::Always, standins: ON_REACHED },
    Table { file: "question", test: "on_reached_states", finds: Finds::Always, standins: OF_BOTH },
    Table { file: "question", test: "on_reached_states", finds: Finds::Always, standins: OF_CALLS },
    Table { file: "question", test: "on_any_counts", finds: Finds::Always, standins: ON_ANY },
    Table { file: "question", test: "with_any_number_of_counts", finds: Finds::Always, standins: WITH_NUMBERS },
];

/// A stand-in for the library's answer: its name, what is wrong with it, and what it does.
macro_rules! asked {
    ($name:expr, $says:expr, $asks:expr $(,)?) => {
        Standin { name: $name, says: $says, how: Asked($asks) }
    };
}

/// Likewise for both answers alike.
macro_rules! both {
    ($name:expr, $says:expr, $tells:expr $(,)?) => {
        Standin { name: $name, says: $says, how: BothAsked($tells) }
    };
}

/// What is wrong also where the counts are those of the marks.
const ON_REACHED: &[Standin] = &[
    asked!("question_misses_first", "the first sample of the span has no say", |lent, span| {
        saying(lent, span, |marks, counts, span| {
            rule(marks, counts, Span { start: span.start + 1, len: span.len.saturating_sub(1) })
        })
    }),
    asked!("question_misses_last", "the last sample of the span has no say", |lent, span| {
        saying(lent, span, |marks, counts, span| rule(marks, counts, Span { len: span.len.saturating_sub(1), ..span }))
    }),
    asked!("question_one_before", "the sample before the span has a say too", |lent, span| {
        saying(lent, span, |marks, counts, span| {
            rule(marks, counts, span) && (span.start == 0 || span.len == 0 || marks[span.start - 1] == 0)
        })
    }),
    asked!("question_one_behind", "the sample behind the span has a say too", |lent, span| {
        saying(lent, span, |marks, counts, span| {
            rule(marks, counts, span)
                && (span.len == 0 || marks.get(span.start + span.len).map_or(true, |mark| *mark == 0))
        })
    }),
    asked!("question_whole_first_block", "all marks of the first block have a say", |lent, span| {
        saying(lent, span, |marks, counts, span| {
            rule(marks, counts, span) && (span.len == 0 || is_measured(marks, first(span) * BLOCK, span.start))
        })
    }),
    asked!("question_whole_last_block", "all marks of the last block have a say", |lent, span| {
        saying(lent, span, |marks, counts, span| {
            rule(marks, counts, span)
                && (span.len == 0 || is_measured(marks, span.start + span.len, (last(span) + 1) * BLOCK))
        })
    }),
    asked!("question_misses_block_between", "the last block between has no say", |lent, span| {
        saying(lent, span, |marks, counts, span| {
            by_parts(marks, counts, span, |first, last| first + 1..last.saturating_sub(1))
        })
    }),
    asked!("question_misses_first_between", "the first block between has no say", |lent, span| {
        saying(lent, span, |marks, counts, span| by_parts(marks, counts, span, |first, last| first + 2..last))
    }),
    asked!("question_misses_all_between", "the blocks between have no say", |lent, span| {
        saying(lent, span, |marks, counts, span| by_parts(marks, counts, span, |_, _| 0..0))
    }),
    asked!("question_counts_last_block_too", "the last block's count has a say too", |lent, span| {
        saying(lent, span, |marks, counts, span| by_parts(marks, counts, span, |first, last| first + 1..last + 1))
    }),
    asked!("question_counts_first_block_too", "the first block's count has a say too", |lent, span| {
        saying(lent, span, |marks, counts, span| by_parts(marks, counts, span, |first, last| first..last))
    }),
    asked!("question_counts_alone", "counts alone have a say", |lent, span| saying(lent, span, by_counts)),
    asked!("question_length_0_no", "a span of length 0 gets no", |lent, span| {
        saying(lent, span, |marks, counts, span| span.len > 0 && rule(marks, counts, span))
    }),
    asked!("question_length_0_by_mark", "a span of length 0 is asked for the mark at its start", |lent, span| {
        saying(lent, span, |marks, counts, span| {
            rule(marks, counts, span) && (span.len > 0 || marks.get(span.start).map_or(true, |mark| *mark == 0))
        })
    }),
    asked!("question_length_0_at_end_5", "a span of length 0 at the very end gives 5", |lent, span| {
        refusing(lent, span, |n, span| span.start == n && span.len == 0)
    }),
    asked!("question_length_0_5", "a span of length 0 gives 5", |lent, span| {
        refusing(lent, span, |_, span| span.len == 0)
    }),
    asked!("question_5_at_end", "a span that ends with the recording gives 5", |lent, span| {
        refusing(lent, span, |n, span| span.end() == Some(n) && span.len > 0)
    }),
    asked!("question_5_not_one_past", "a span that ends one past the recording does not give 5", |lent, span| {
        allowing(lent, span, |n, span| span.end() == Some(n + 1))
    }),
    asked!("question_5_wraps", "start plus length goes round past 2^64, so that 5 is not given", |lent, span| {
        allowing(lent, span, |n, span| span.start.wrapping_add(span.len) <= n)
    }),
    asked!("question_5_not_of_length_0", "a span of length 0 past the end does not give 5", |lent, span| {
        allowing(lent, span, |_, span| span.len == 0)
    }),
    asked!("question_5_yes", "on 5 the answer is yes", |lent, span| on(lent, span, 5, 1)),
    asked!("question_5_not_written", "on 5 no answer is written", |lent, span| on(lent, span, 5, YES_BEFORE)),
    asked!("question_gives_6", "6 is answered for 5", |lent, span| match lent.question(span) {
        5 => 6,
        number => number,
    }),
    asked!("question_yes_is_2", "yes is 2", |lent, span| writing(lent, span, |yes| 2 * yes)),
    asked!("question_turned_round", "yes is told for no, and no for yes", |lent, span| {
        match writing(lent, span, |yes| 1 - yes) {
            0 => 0,
            number => {
                lent.yes.lend()[0] = 0;
                number
            }
        }
    }),
    asked!("question_in_8_bytes", "the answer is written as 8 bytes", |lent, span| {
        let number = lent.question(span);
        lent.yes.whole[GUARDS + 1] = 0;
        number
    }),
    asked!("question_6_is_measured", "mark 6 does not stand in the way", |lent, span| {
        saying(lent, span, |marks, _, span| of(marks, span).iter().all(|mark| [0, NOT_RECEIVED].contains(mark)))
    }),
    asked!("question_made_is_measured", "marks 1 to 5, 7 and 8 do not stand in the way", |lent, span| {
        saying(lent, span, |marks, _, span| !of(marks, span).iter().any(|mark| *mark != 0 && !is_made(*mark)))
    }),
    asked!("question_7_is_measured", "mark 7 does not stand in the way", |lent, span| {
        saying(lent, span, |marks, _, span| of(marks, span).iter().all(|mark| [0, 7].contains(mark)))
    }),
    asked!("question_8_is_measured", "mark 8 does not stand in the way", |lent, span| {
        saying(lent, span, |marks, _, span| of(marks, span).iter().all(|mark| [0, 8].contains(mark)))
    }),
    asked!("question_blocks_of_255", "a block has 255 samples", |lent, span| {
        saying(lent, span, |marks, counts, span| by_blocks_of(marks, counts, span, 255))
    }),
    asked!("question_blocks_of_257", "a block has 257 samples", |lent, span| {
        saying(lent, span, |marks, counts, span| by_blocks_of(marks, counts, span, 257))
    }),
    asked!("question_writes_mark", "the question sets the first mark of the span to 0", |lent, span| {
        let number = lent.question(span);
        lent.marks.lend().iter_mut().skip(span.start).take(1).for_each(|mark| *mark = 0);
        number
    }),
];

/// On both sides, so that only the marks tell.
const OF_BOTH: &[Standin] = &[
    both!("question_both_counts_alone", "counts alone have a say", |marks, counts, span| told(
        marks, counts, span, by_counts
    )),
    both!("question_both_misses_last", "the last sample of the span has no say", |marks, counts, span| {
        told(marks, counts, span, |marks, counts, span| {
            rule(marks, counts, Span { len: span.len.saturating_sub(1), ..span })
        })
    }),
    both!("question_both_misses_between", "the blocks between have no say", |marks, counts, span| {
        told(marks, counts, span, |marks, counts, span| by_parts(marks, counts, span, |_, _| 0..0))
    }),
    both!("question_both_counts_last_too", "the last block's count has a say too", |marks, counts, span| {
        told(marks, counts, span, |marks, counts, span| {
            by_parts(marks, counts, span, |first, last| first + 1..last + 1)
        })
    }),
    both!("question_both_length_0_no", "a span of length 0 gets no", |marks, counts, span| {
        told(marks, counts, span, |marks, counts, span| span.len > 0 && rule(marks, counts, span))
    }),
    both!("question_both_always_no", "every span gets no", |marks, counts, span| told(
        marks,
        counts,
        span,
        |_, _, _| false
    )),
    both!("question_both_always_5", "every span gives 5", |_, _, _| Told { number: 5, yes: false }),
    both!(
        "question_both_5_not_one_past",
        "a span that ends one past the recording gets no, and not 5",
        |marks, counts, span| {
            let number = refused(marks, counts, span).filter(|_| span.end() != Some(marks.len() + 1)).unwrap_or(0);
            Told { number, yes: refused(marks, counts, span).is_none() && rule(marks, counts, span) }
        }
    ),
];

/// The calls before the question, alike on both sides: the answers follow the counts and not the marks.
const OF_CALLS: &[Standin] = &[
    Standin { name: "question_open_keeps_counts", says: "openings leave the counts", how: Alike(open_keeps_counts) },
    Standin {
        name: "question_open_clears_counts",
        says: "openings set all counts to 0",
        how: Alike(open_clears_counts),
    },
    Standin { name: "question_undo_keeps_counts", says: "undo leaves the counts", how: Alike(undo_keeps_counts) },
    Standin { name: "question_repair_keeps_counts", says: "repairs leave the counts", how: Alike(repair_keeps_counts) },
    Standin {
        name: "question_repair_counts_first_block",
        says: "a repair recounts only the block of its first sample",
        how: Alike(repair_counts_first_block),
    },
];

/// What shows only where the counts are not those of the marks.
const ON_ANY: &[Standin] = &[
    asked!("question_marks_alone", "marks alone have a say", |lent, span| {
        saying(lent, span, |marks, _, span| by_each_mark(marks, span))
    }),
    asked!("question_marks_between_too", "marks have a say between too", |lent, span| {
        saying(lent, span, |marks, counts, span| rule(marks, counts, span) && by_each_mark(marks, span))
    }),
    asked!("question_marks_between_suffice", "between, either a count of 0 or marks of 0 will do", |lent, span| {
        saying(lent, span, |marks, counts, span| rule(marks, counts, span) || by_each_mark(marks, span))
    }),
    asked!(
        "question_whole_first_by_count",
        "a first block that is wholly in the span is told by its count",
        |lent, span| {
            saying(lent, span, |marks, counts, span| {
                let by_count = span.start % BLOCK == 0 && span.len >= BLOCK;
                if by_count {
                    by_ends(marks, counts, span, [true, false])
                } else {
                    rule(marks, counts, span)
                }
            })
        },
    ),
    asked!(
        "question_whole_last_by_count",
        "a last block that is wholly in the span is told by its count",
        |lent, span| {
            saying(lent, span, |marks, counts, span| {
                let by_count = (span.start + span.len) % BLOCK == 0 && span.len >= BLOCK;
                if by_count {
                    by_ends(marks, counts, span, [false, true])
                } else {
                    rule(marks, counts, span)
                }
            })
        }
    ),
    asked!(
        "question_short_last_by_count",
        "a short last block that is wholly in the span is told by its count",
        |lent, span| {
            saying(lent, span, |marks, counts, span| {
                let by_count = span.len > 0 && span.start + span.len == marks.len() && span.start <= last(span) * BLOCK;
                if by_count {
                    by_ends(marks, counts, span, [false, true])
                } else {
                    rule(marks, counts, span)
                }
            })
        },
    ),
    asked!("question_count_below_256", "between, only a count of 256 or more stands in the way", |lent, span| {
        saying(lent, span, |marks, counts, span| {
            let full: Vec<u16> = counts.iter().map(|count| count / 256).collect();
            rule(marks, &full, span)
        })
    }),
    asked!("question_count_as_byte", "of a count the last 8 binary digits are read", |lent, span| {
        saying(lent, span, |marks, counts, span| {
            let bytes: Vec<u16> = counts.iter().map(|count| count & 0xff).collect();
            rule(marks, &bytes, span)
        })
    }),
    asked!("question_count_signed", "a count above 32,767 is below 0, and does not stand in the way", |lent, span| {
        saying(lent, span, |marks, counts, span| {
            let signed: Vec<u16> = counts.iter().map(|count| (*count as i16).max(0) as u16).collect();
            rule(marks, &signed, span)
        })
    }),
    asked!("question_sum_of_counts", "the counts between are summed in 16 binary digits", |lent, span| {
        saying(lent, span, |marks, counts, span| {
            let between = if span.len > 0 { first(span) + 1..last(span) } else { 0..0 };
            let sum =
                counts.iter().take(between.end).skip(between.start).fold(0u16, |sum, count| sum.wrapping_add(*count));
            by_parts(marks, counts, span, |_, _| 0..0) && sum == 0
        })
    }),
    asked!("question_recounts", "the question sets the counts right", |lent, span| {
        let number = lent.question(span);
        let right = counted(lent.marks.lent());
        lent.counts.lend().iter_mut().zip(right).for_each(|(count, of)| *count = of);
        number
    }),
];

/// When 14 is given, and that 2 is not.
const WITH_NUMBERS: &[Standin] = &[
    asked!("question_tests_5_before_14", "5 is tested before 14", |lent, span| match lent.question(span) {
        14 if span.is_past(lent.marks.lent().len()) => 5,
        number => number,
    }),
    asked!("question_misses_14_for_more", "14 is not given where there are too many counts", |lent, span| {
        taking(lent, span, |has, n| has >= blocks(n))
    }),
    asked!("question_misses_14_for_fewer", "14 is not given where there are too few counts", |lent, span| {
        taking(lent, span, |has, n| has <= blocks(n))
    }),
    asked!("question_14_rounded_down", "as many counts are asked for as there are whole blocks", |lent, span| {
        taking(lent, span, |has, n| has == n / BLOCK)
    }),
    asked!("question_14_one_more", "a count is asked for behind the last whole block, also of none", |lent, span| {
        taking(lent, span, |has, n| has == n / BLOCK + 1)
    }),
    asked!("question_misses_14_of_none", "14 is not given where there are no samples", |lent, span| {
        taking(lent, span, |has, n| n == 0 || has == blocks(n))
    }),
    asked!("question_misses_14_of_length_0", "14 is not given for a span of length 0", |lent, span| {
        match lent.question(span) {
            14 if span.len == 0 => answer(lent, 0, 1),
            number => number,
        }
    }),
    asked!("question_misses_14_within_block", "14 is not given for a span within one block", |lent, span| {
        match lent.question(span) {
            14 if span.len > 0 && !span.is_past(lent.marks.lent().len()) && first(span) == last(span) => {
                let yes = by_each_mark(lent.marks.lent(), span);
                answer(lent, 0, yes.into())
            }
            number => number,
        }
    }),
    asked!("question_14_yes", "on 14 the answer is yes", |lent, span| on(lent, span, 14, 1)),
    asked!("question_14_not_written", "on 14 no answer is written", |lent, span| on(lent, span, 14, YES_BEFORE)),
    asked!("question_gives_1_for_14", "1 is answered for 14", |lent, span| match lent.question(span) {
        14 => 1,
        number => number,
    }),
    asked!("question_gives_2", "2 is given for more than 1,048,576 samples", |lent, span| match lent.question(span) {
        14 => 14,
        _ if lent.marks.lent().len() > MOST_SAMPLES => answer(lent, 2, 0),
        number => number,
    }),
];

/// The block of the first sample of a span that has samples, and that of the last.
fn first(span: Span) -> usize {
    span.start / BLOCK
}

fn last(span: Span) -> usize {
    (span.start + span.len - 1) / BLOCK
}

/// The marks of a span within them.
fn of(marks: &[u8], span: Span) -> &[u8] {
    &marks[span.start..span.start + span.len]
}

/// Whether all marks from one place to before another are 0, as far as there are any.
fn is_measured(marks: &[u8], from: usize, to: usize) -> bool {
    marks.iter().take(to).skip(from).all(|mark| *mark == 0)
}

/// The answer for a span within the marks, where these blocks have to have the count 0.
fn by_parts(marks: &[u8], counts: &[u16], span: Span, between: fn(usize, usize) -> Range<usize>) -> bool {
    if span.len == 0 {
        return true;
    }
    let (first, last, end) = (first(span), last(span), span.start + span.len);
    if first == last {
        return is_measured(marks, span.start, end);
    }
    let blocks = between(first, last);
    let by_counts = counts.iter().take(blocks.end).skip(blocks.start).all(|count| *count == 0);
    by_counts && is_measured(marks, span.start, (first + 1) * BLOCK) && is_measured(marks, last * BLOCK, end)
}

/// The answer as it is to be.
fn rule(marks: &[u8], counts: &[u16], span: Span) -> bool {
    by_parts(marks, counts, span, |first, last| first + 1..last)
}

/// The answer by the counts of all blocks that the span touches.
fn by_counts(_: &[u8], counts: &[u16], span: Span) -> bool {
    span.len == 0 || counts[first(span)..=last(span)].iter().all(|count| *count == 0)
}

/// The answer where the first block of the span or the last is told by its count and not by its marks.
fn by_ends(marks: &[u8], counts: &[u16], span: Span, [first_by_count, last_by_count]: [bool; 2]) -> bool {
    let (first, last, end) = (first(span), last(span), span.start + span.len);
    (first..=last).all(|block| {
        let by_count = match block {
            _ if block == first && first_by_count || block == last && last_by_count => true,
            _ => block != first && block != last,
        };
        let (from, to) = (span.start.max(block * BLOCK), end.min((block + 1) * BLOCK));
        if by_count {
            counts[block] == 0
        } else {
            is_measured(marks, from, to)
        }
    })
}

/// The answer where a block has so many samples.
fn by_blocks_of(marks: &[u8], counts: &[u16], span: Span, size: usize) -> bool {
    if span.len == 0 {
        return true;
    }
    let (first, last, end) = (span.start / size, (span.start + span.len - 1) / size, span.start + span.len);
    if first == last {
        return is_measured(marks, span.start, end);
    }
    let between = counts.iter().take(last).skip(first + 1).all(|count| *count == 0);
    between && is_measured(marks, span.start, (first + 1) * size) && is_measured(marks, last * size, end)
}

/// The question answers with this number, and this is written.
fn answer(lent: &mut Lent, number: u32, yes: u32) -> u32 {
    lent.yes.lend()[0] = yes;
    number
}

/// Where the library does not refuse, this is said.
fn saying(lent: &mut Lent, span: Span, says: fn(&[u8], &[u16], Span) -> bool) -> u32 {
    match lent.question(span) {
        0 => {
            let yes = says(lent.marks.lent(), lent.counts.lent(), span);
            answer(lent, 0, yes.into())
        }
        number => number,
    }
}

/// 5 is given where this holds of the number of samples and the span too.
fn refusing(lent: &mut Lent, span: Span, too: fn(usize, Span) -> bool) -> u32 {
    match lent.question(span) {
        0 if too(lent.marks.lent().len(), span) => answer(lent, 5, 0),
        number => number,
    }
}

/// 5 is not given where this holds of them, and no is told.
fn allowing(lent: &mut Lent, span: Span, allowed: fn(usize, Span) -> bool) -> u32 {
    match lent.question(span) {
        5 if allowed(lent.marks.lent().len(), span) => answer(lent, 0, 0),
        number => number,
    }
}

/// With this number, this is written.
fn on(lent: &mut Lent, span: Span, number: u32, yes: u32) -> u32 {
    match lent.question(span) {
        given if given == number => answer(lent, number, yes),
        given => given,
    }
}

/// What is written is made of what the library writes.
fn writing(lent: &mut Lent, span: Span, makes: fn(u32) -> u32) -> u32 {
    let number = lent.question(span);
    let yes = makes(lent.yes.lent()[0]);
    answer(lent, number, yes)
}

/// 14 is given where this does not take so many counts for so many samples. A count that is not there is 0.
fn taking(lent: &mut Lent, span: Span, takes: fn(usize, usize) -> bool) -> u32 {
    let (mut counts, n) = (lent.counts.lent().to_vec(), lent.marks.lent().len());
    if !takes(counts.len(), n) {
        return answer(lent, 14, 0);
    }
    counts.resize(blocks(n), 0);
    let told = told(lent.marks.lent(), &counts, span, rule);
    answer(lent, told.number, told.yes.into())
}
