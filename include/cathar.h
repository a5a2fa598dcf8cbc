/* The functions of libcathar.a, for programs on x86-64 Linux, with names for limits, marks and answers, and
 * functions that say how much memory a call needs. examples/repair.c, examples/gaps.c, examples/crackle.c,
 * examples/propose.c, examples/settings.c and examples/wav.c are such programs, each with the command that compiles it.
 *
 * Each is total: it asks nothing of its arguments but what C asks of a pointer, always returns, and touches
 * no memory but its own stack and what is lent to it. What each gives and leaves in that memory is proved,
 * for every argument, of the function of the same name in crates/cathar; the rules, to the last bit, are
 * the definitions in crates/<crate>/specs. Of the C library they call memset and nothing else.
 *
 * They keep nothing from one call to the next, so that calls may run in several threads at once, as long as
 * nothing that one of them writes is lent to another.
 *
 * They need the floating-point state that a program starts with: rounding to nearest, and neither
 * flush-to-zero nor denormals-are-zero. In any other they may give other samples. */
#ifndef CATHAR_H
#define CATHAR_H

#include <stddef.h>
#include <stdint.h>

#ifdef __cplusplus
extern "C" {
#endif

/* The square root of x, correctly rounded: of all doubles the one nearest to the exact root. No tie
 * can occur, and no root of a finite x overflows or is subnormal.
 *   NaN              NaN
 *   below zero       NaN, -infinity among them
 *   +0 and -0        x itself, with its sign
 *   +infinity        +infinity */
double cathar_sqrt(double x);

/* The float nearest to x; of two as near, the one whose last digit is even.
 *   NaN              NaN
 *   +0 and -0        the zero of the same sign
 *   +-infinity       the infinity of the same sign
 *   magnitude from 2^128 - 2^103 on   the infinity of the same sign (half a step past the largest float)
 *   magnitude to 2^-150               the zero of the same sign (half of the least float) */
float cathar_narrow(double x);

/* x to the nearest whole number, halves away from zero: 2.5 gives 3, -2.5 gives -3.
 *   NaN              NaN
 *   +0 and -0        x itself, with its sign
 *   magnitude below 1/2               the zero of the same sign
 *   magnitude from 2^23 on            x itself, +infinity and -infinity among them */
float cathar_round(float x);

/* A recording is memory that the caller lends to each call, to cathar_open or cathar_open_received first:
 *   samples   n words, each the pattern of a float as it stands in memory: that of 1.0f is 0x3f800000, and
 *             memcpy of the 4 bytes makes either of the other. Places count from 0.
 *   marks     marks_n bytes, one for each sample: what it says of the sample is below
 *   counts    counts_n numbers of 16 bits, one for each block of CATHAR_BLOCK samples, of which the last may be short:
 *             how many of its marks are not 0. cathar_counts(n), below, says how many to lend
 *   journal   journal_n words
 *   used      one number: how many of the journal's words are taken, from its start on
 * An area and its length, in elements, follow each other. Each area has at least the length given for it. No
 * pointer is null, not even that of an area of length 0; each is aligned for its type; and no two areas
 * overlap, used, value, order and yes among them, nor a workspace, a list of orders, qualified or repaired, nor the
 * lists of several gaps, nor a proposal.
 *
 * A sample is in range if it is finite and its magnitude is at most CATHAR_LOUDEST. */
#define CATHAR_MOST_SAMPLES 1048576     /* the most samples of a recording */
#define CATHAR_BLOCK 256                /* how many samples share a count */
#define CATHAR_LOUDEST 65536            /* the largest magnitude that is in range */
#define CATHAR_MOST_BY_MODEL 2048       /* the longest gap that the model fills; a longer one becomes a line */
#define CATHAR_MOST_GAPS 64             /* the most gaps that one call takes */
#define CATHAR_MOST_RATE 16777216       /* the highest rate that a scan takes */
#define CATHAR_HELD_RUN 16              /* the usual held run: so many equal words in range, or more, are a dropout */
#define CATHAR_LEAST_HELD_RUN 2         /* the shortest held run that a scan takes, and the longest */
#define CATHAR_MOST_HELD_RUN 4096
#define CATHAR_LEAST_BITS 4             /* what the bits of both forms of dequantize are held to */
#define CATHAR_MOST_BITS 24
#define CATHAR_MOST_ITERATIONS 16       /* as many iterations are made at most */
#define CATHAR_FRAME_BYTES 66           /* a frame of the bus: a number of 2 bytes, and 16 words of 4 */
#define CATHAR_FRAME_WORDS 16
#define CATHAR_MOST_MISSING 1000        /* the most frames that may be missing before one that is read */
#define CATHAR_MISSING_WORD 0x7FC00000  /* a NaN, the word of each sample of a missing frame */
#define CATHAR_MEAN_OVER 1024           /* decrackle's floor starts at the mean over so many samples, or over all */
#define CATHAR_CRACKLE_STATE 1032       /* the words that a run of the crackle detector needs between its calls */
#define CATHAR_SETTINGS 7               /* the settings of a stored block of version 2, and its bytes */
#define CATHAR_SETTINGS_BYTES 120
#define CATHAR_SETTINGS_V1 6            /* the settings of a stored block of version 1, and its bytes */
#define CATHAR_SETTINGS_V1_BYTES 104
#define CATHAR_WAV_HEADER_BYTES 44      /* the bytes before the samples of a WAV file that is written */

/* The marks. A repair names the samples that it writes, and no others. Each gets its result, which may be the word
 * that it had, and the repair's mark, which is 1 to 5, 7 or 8. So, where nothing but these calls writes a recording, a
 * mark of these tells which repair was the last to name the sample; and a sample that is marked as measured or as not
 * received was so marked when the recording was opened, and has the word that it was opened with.
 *
 * What a repair reads it takes as it stands: a sample that an earlier repair made counts like a measured one, in
 * gaps, in scans and in the repairs over the whole recording, and so does one that was not received, whose word
 * CATHAR_MISSING_WORD is not in range. Who wants a repair to rest on measured samples alone looks at the marks
 * before. */
#define CATHAR_MARK_MEASURED 0          /* as it came from the pump */
#define CATHAR_MARK_GAP_BY_MODEL 1
#define CATHAR_MARK_GAP_BY_LINE 2       /* a straight line */
#define CATHAR_MARK_CUBIC_DECLIP 3
#define CATHAR_MARK_DECRACKLE 4         /* from the old start */
#define CATHAR_MARK_DEQUANTIZE 5        /* in either form */
#define CATHAR_MARK_NOT_RECEIVED 6      /* the frame that it was in did not arrive; no repair sets this mark */
#define CATHAR_MARK_DECRACKLE_FROM_MEAN 7
#define CATHAR_MARK_DECLIP_PROPOSED 8   /* made by another program, and taken because it keeps to the rule */

/* The counts are for cathar_measured alone, and are the library's between calls: who writes marks or counts gets
 * answers from it that say nothing. Both openings set all of them. An accepted repair that names a sample, and an
 * accepted undo, count the blocks of their samples anew from the marks and write no other count, also where those that
 * they are lent are wrong. This gives how many to lend for n samples: one for each CATHAR_BLOCK of them or part of
 * these, and none for none. With any other number a call is refused by 14. */
static inline size_t cathar_counts(size_t n)
{
    return n / CATHAR_BLOCK + (n % CATHAR_BLOCK != 0);
}

/* The answers. Each call on a recording, the question cathar_measured, the reading of frames, the calls of the crackle
 * detector, the readers and writers of settings and those of WAV files answer CATHAR_ACCEPTED, and else the number of
 * the refusal. Where several apply, it is the first in the list of the call's refusals: they are tested in the order of
 * their numbers, but 14 directly after 1, 15 before 9, and 4 of cathar_inpaint_gaps before all others. The crackle
 * detector tests 13 before 6 and 7, and 6 for a state that is too short before all else. The reader of WAV files tests
 * 2 behind 19 and 20.
 *
 * A call that is refused leaves samples, marks, counts, journal and used as they were. Of its workspace 8 and 9 leave
 * the needed part cleared, and the others leave all of it. A scan, cathar_inpaint_auto, is several repairs, and answers
 * for the first of them that is refused: by 6 to 9 it tells of that run alone, and others may have been repaired. A
 * list of gaps, cathar_inpaint_gaps, is several repairs too: each gap has an answer of its own, and the call's is 4 or
 * else 0, whatever became of the gaps. */
#define CATHAR_ACCEPTED 0
#define CATHAR_REFUSED_COUNTS 1         /* marks and samples differ in number; for the number of counts, see 14 */
#define CATHAR_REFUSED_TOO_MANY 2       /* more than CATHAR_MOST_SAMPLES samples */
#define CATHAR_REFUSED_USED 3           /* used exceeds the journal's length */
#define CATHAR_REFUSED_SETTING 4        /* a setting is not allowed; too many gaps, or lists of different lengths */
#define CATHAR_REFUSED_GAP 5            /* gap length 0, start at or past the end, or gap past the end; span past it */
#define CATHAR_REFUSED_WORKSPACE 6      /* workspace shorter than needed; crackle: room for flags, or the state, is;
                                         * stored settings: they, or the room for their block, are */
#define CATHAR_REFUSED_READ 7           /* a sample that the repair or the crackle detector reads is not in range;
                                         * WAV: one that is to be written is not */
#define CATHAR_REFUSED_RESULT 8         /* a result at a named sample is not in range */
#define CATHAR_REFUSED_ROOM 9           /* fewer than 3m+2 free journal words, where m samples are named, at least 1 */
#define CATHAR_REFUSED_NOTHING 10       /* undo: used is 0 */
#define CATHAR_REFUSED_MALFORMED 11     /* undo: the last entry is malformed */
#define CATHAR_REFUSED_FRAMES 12        /* frames: the input is not whole frames, or samples or marks lack room */
#define CATHAR_REFUSED_PIECES 13        /* crackle: more samples than announced, fewer at the end, or the run is over */
#define CATHAR_REFUSED_BLOCKS 14        /* the number of counts is not that of the blocks */
#define CATHAR_REFUSED_PROPOSAL 15      /* the proposal has another length than the recording, or breaks the rule */
#define CATHAR_REFUSED_VERSION 17       /* stored settings: a version that the reader does not know */
#define CATHAR_REFUSED_STORED 18        /* stored settings: the block is malformed, or a setting is not allowed */
#define CATHAR_REFUSED_WAVE 19          /* WAV: not a whole RIFF WAVE file with fmt before data of an even length */
#define CATHAR_REFUSED_CODING 20        /* WAV: not mono 16-bit PCM */
#define CATHAR_REFUSED_OUTPUT 21        /* WAV: the room for samples, for marks or for the file is short */

/* Reads what the bus sent, frames_n bytes, into the samples and marks of a recording, which cathar_open_received
 * then opens. A frame is CATHAR_FRAME_BYTES bytes: its number, of 16 bits, and then CATHAR_FRAME_WORDS words of 32
 * bits, each the pattern of a float; all have the lowest byte first. Numbers go round from 65535 to 0. The number of
 * the first frame is expected. How far the number of a frame is ahead of the expected one, going round, decides:
 *   0          it is the next: its words, whatever they are, become samples that are marked 0
 *   1 to 1000  so many frames are missing, CATHAR_MOST_MISSING at most: each becomes CATHAR_FRAME_WORDS samples of
 *              the word CATHAR_MISSING_WORD that are marked 6, and behind them come the frame's own as above
 *   more       it is late or a repeat: it is dropped, and changes nothing but the count of these
 * After a frame that is not dropped the number behind its own is expected. So, after a loss of more than
 * CATHAR_MOST_MISSING frames, all that follow are dropped until the expected number has come round again: where
 * dropped is that high, what follows the loss has to be read as a recording of its own.
 * n receives the number of samples, missing that of the missing frames and dropped that of the dropped ones, and all
 * receive 0 where it was refused; what they held has no say. Of samples and marks the first n are written, and
 * nothing behind them; where it was refused, nothing is. Room for CATHAR_MOST_SAMPLES of either is always enough. No
 * two areas overlap, the three numbers among them, and no pointer is null. An input of 0 bytes makes no samples, and
 * is accepted.
 * Refusals: 2, 12. Refusal 2 is given where the whole frames of the input make more than CATHAR_MOST_SAMPLES samples,
 * and else 12 where
 *   frames_n is not a multiple of CATHAR_FRAME_BYTES, or
 *   samples_n or marks_n is less than the number of samples. */
uint32_t cathar_read_frames(const uint8_t *frames, size_t frames_n, uint32_t *samples, size_t samples_n,
                            uint8_t *marks, size_t marks_n, size_t *n, size_t *missing, size_t *dropped);

/* The journal holds one entry for each accepted repair that named a sample, the oldest first. An entry
 * that names m samples takes 3m+2 words:
 *   for each named sample, ascending, its place, its old word and its old mark;
 *   then m;
 *   then the mark that the repair set.
 * For so many repairs of n samples, whatever they name, this gives as many words as are enough, a scan counting as
 * one repair, and a list of gaps as one for each gap. (Those over the whole recording never name the first and the
 * last sample; where they name all others, as cathar_dequantize does, k of them take k times 3(n-2)+2 words. A proposal
 * may name every sample, and takes 3n+2 words then. A scan counts so where its held run is CATHAR_HELD_RUN or longer.
 * For one at a shorter held run cathar_scan_words, below, gives more.) */
static inline size_t cathar_journal_words(size_t n, size_t repairs)
{
    return repairs * (3 * n + n / (CATHAR_HELD_RUN + 2) + 2);
}

/* As many words of the journal as are enough for one scan of n samples at this held run, which is
 * CATHAR_LEAST_HELD_RUN..CATHAR_MOST_HELD_RUN. Its runs take most where two zeros stand directly before held_run equal
 * words, again and again: 3*held_run+7 words for each held_run+2 samples. At CATHAR_HELD_RUN these are 55 for each 18,
 * at CATHAR_LEAST_HELD_RUN 13 for each 4. */
static inline size_t cathar_scan_words(size_t n, uint32_t held_run)
{
    return 3 * n + n / ((size_t)held_run + 2) + 2;
}

/* Opens a recording: sets all marks, all counts, all journal words and used to 0. What they held has no say. The
 * samples stay as they are, and may be any words.
 *
 * WARNING: open raw samples, and open them once. This function takes the samples as they stand for measured. Called
 * again on a recording that was repaired, it marks every made sample as measured, and its journal no longer knows
 * what stood there: a repaired curve is then shown as sound from the pump, and no call can tell. Who needs room in
 * the journal undoes repairs, or keeps the old marks elsewhere before opening and joins them to the new ones.
 * Nor are samples for it that cathar_read_frames gave: it marks those that never arrived as measured.
 *
 * Refusals: 1, 14, 2. */
uint32_t cathar_open(const uint32_t *samples, size_t n, uint8_t *marks, size_t marks_n,
                     uint16_t *counts, size_t counts_n, uint32_t *journal, size_t journal_n, size_t *used);

/* Opens a recording of samples and marks that cathar_read_frames gave: it keeps mark 6, CATHAR_MARK_NOT_RECEIVED,
 * where it stands, sets every other mark to 0 and the counts to those of these marks, and else does as cathar_open. So
 * the marks of the recording as it was opened, to which undoing all repairs leads back, are 0 or 6, whatever the caller
 * lends.
 *
 * WARNING: open these once, too. Called again on a recording that was repaired, this function marks every made sample
 * as measured, also where nothing had been received.
 *
 * Refusals: 1, 14, 2. */
uint32_t cathar_open_received(const uint32_t *samples, size_t n, uint8_t *marks, size_t marks_n,
                              uint16_t *counts, size_t counts_n, uint32_t *journal, size_t journal_n, size_t *used);

/* Takes back the last entry: each sample that it names gets its old word and its old mark again, their blocks are
 * counted anew, used falls by 3m+2, and the freed journal words become 0. All else stays, journal words past used too.
 * The next call takes back the entry before it, and so on to the recording as it was opened.
 * value receives m where it was accepted, and 0 where it was refused; what it held has no say.
 * Refusals: 1, 14, 2, 3, 10, 11. Refusal 11 is given where
 *   used is 1,
 *   m is 0 or more than n,
 *   3m+2 exceeds used,
 *   a place is not below n,
 *   places do not strictly rise,
 *   an old mark exceeds 255, or
 *   the set mark is not 1 to 5, 7 or 8. */
uint32_t cathar_undo(uint32_t *samples, size_t n, uint8_t *marks, size_t marks_n,
                     uint16_t *counts, size_t counts_n, uint32_t *journal, size_t journal_n, size_t *used,
                     size_t *value);

/* Asks whether the len samples from start on are all measured: yes receives 1 where each of them has mark 0, and else
 * 0. That is so where nothing but the calls on a recording wrote its marks and counts since it was opened; and then 1
 * also says that each of these samples was received and has the word that it was opened with. A span of length 0 gets
 * 1, also at the very end, where start is n.
 * It does not go through the span. It looks at the span's marks in the block of its first sample and in that of its
 * last, and where there are blocks between, at their counts, each of which has to be 0: there the counts decide,
 * whatever the marks are.
 * n is the number of marks, and any number of them is allowed. It writes nothing but yes, whose contents have no say.
 * Refusals: 14, 5, tested in this order; yes receives 0 then. Refusal 5 is given where start plus len exceeds n, also
 * where that sum is no size_t. */
uint32_t cathar_measured(const uint8_t *marks, size_t n, const uint16_t *counts, size_t counts_n,
                         size_t start, size_t len, uint32_t *yes);

/* Repairs the gap of len samples from start on: it names just these. What stood there has no say in what
 * comes to stand there. A gap longer than CATHAR_MOST_BY_MODEL becomes a straight line between its neighbours, a
 * missing one counting as 0: mark 2, and the neighbours are read. Any other is filled from an autoregressive model
 * of the samples around it: mark 1, and all samples of the window are read that lie outside the gap.
 *   context   the larger of 4*len and 1024
 *   window    from max(0, start-context) to before min(n, start+len+context)
 *   p         len, but at least 32 and at most 128
 * Any number of passes is allowed, 0 among them, and every number gives the same.
 * work is the workspace: work_n doubles, of any contents. Of these it needs as many as cathar_gap_work says,
 * below. The needed doubles, from the first on, are all +0 after an acceptance or after refusal 8 or 9, and else
 * they stay. All others stay.
 * value receives len where it was accepted, for refusals 7 and 8 the lowest place whose sample or result is
 * not in range, and 0 for the others; what it held has no say.
 * order receives the highest order that the model used: how far it got. All coefficients behind it are +0. An order
 * below p, which is min(max(len, 32), 128), says that the model broke off early, and 0 that it did so at once, as where
 * all that is read is silent or next to it. A straight line and every refusal give 0, too; what it held has no say.
 * Two gaps may be repaired in either order where neither has a sample in the other's window (that of a straight line is
 * the gap and its neighbours), both calls are accepted in one order, and the workspace fits each: in the other order
 * both are accepted too, with the same value and order each, and samples, marks, counts and used are the same. Only the
 * two entries of the journal change places, and with them which repair cathar_undo takes back first.
 * Refusals: 1, 14, 2, 3, 5, 6, 7, 8, 9. */
uint32_t cathar_inpaint_gap(uint32_t *samples, size_t n, uint8_t *marks, size_t marks_n,
                            uint16_t *counts, size_t counts_n, uint32_t *journal, size_t journal_n, size_t *used,
                            size_t start, size_t len, uint32_t passes,
                            double *work, size_t work_n, size_t *value, uint32_t *order);

/* How many doubles that workspace needs:
 *   len       for the straight line
 *   window + len*(p+1) + 3*len + 4*(p+1) for the model, with the window's samples counted: at most 289,284
 * and 0 for a gap that is not within n samples, which is refused whatever the workspace has. */
static inline size_t cathar_gap_work(size_t n, size_t start, size_t len)
{
    size_t context, from, to, p;
    if (len == 0 || start >= n || len > n - start)
        return 0;
    if (len > CATHAR_MOST_BY_MODEL)
        return len;
    context = 4 * len > 1024 ? 4 * len : 1024;
    from = start > context ? start - context : 0;
    to = n - (start + len) > context ? start + len + context : n;
    p = len < 32 ? 32 : len > 128 ? 128 : len;
    return (to - from) + len * (p + 1) + 3 * len + 4 * (p + 1);
}

/* How many doubles are enough for any gap of at most `longest` samples, among n: where longest is n, for any gap
 * at all. For one by model that is what it needs in the middle of a recording. */
static inline size_t cathar_longest_gap_work(size_t n, size_t longest)
{
    size_t by_line = longest < n ? longest : n;
    size_t len = by_line < CATHAR_MOST_BY_MODEL ? by_line : CATHAR_MOST_BY_MODEL;
    size_t by_model = cathar_gap_work(n, (n - len) / 2, len);
    return by_line > CATHAR_MOST_BY_MODEL && by_line > by_model ? by_line : by_model;
}

/* Repairs several gaps in one call, each as cathar_inpaint_gap does. starts and lens are lists of the same length, of
 * CATHAR_MOST_GAPS at most: gap k is the lens[k] samples from starts[k] on. The gaps are repaired in the order given,
 * each on what the ones before it left of recording and workspace, and a refused one does not end the list. They may
 * overlap, touch and repeat. So samples, marks, counts, journal, used, work and all answers are those of single calls
 * in turn. Where no gap of a list has a sample in the window of another, and all are accepted, any order of them gives
 * the same samples, marks, counts and used, each gap its own answer, and the journal the entries in that order.
 * numbers, values and orders are lists as long as these, of any contents. Gap k has its answer in place k of them:
 * numbers[k] receives CATHAR_ACCEPTED or the number of the gap's refusal, and values[k] and orders[k] what
 * cathar_inpaint_gap would hand back in value and order.
 * passes is for all gaps: any number is allowed, and every number gives the same.
 * work is lent to the repair of one gap after the other, and left by each as cathar_inpaint_gap says; a gap for which
 * it is too short has refusal 6. cathar_longest_gap_work(n, longest) doubles are enough for all gaps of at most
 * `longest` samples.
 * Each gap that is repaired has an entry of its own in the journal, so that cathar_undo takes back one gap at a time,
 * the last one first. For all gaps 3*len+2 free words each are enough, and so are cathar_journal_words(n, starts_n).
 * The call itself answers 0, or 4. Where it answers 4 nothing at all is done: no answer is written, and recording and
 * workspace stay. Every other refusal is a gap's own, and stands in its place of numbers: 1, 14, 2 and 3, which are of
 * the recording, stand in all places then. An empty list is accepted, and nothing is done, whatever the recording is.
 * Refusals: 4, tested first. Refusal 4 is given where
 *   starts_n exceeds CATHAR_MOST_GAPS, or
 *   lens_n, numbers_n, values_n or orders_n is not starts_n.
 * Refusals of each gap: 1, 14, 2, 3, 5, 6, 7, 8, 9. */
uint32_t cathar_inpaint_gaps(uint32_t *samples, size_t n, uint8_t *marks, size_t marks_n,
                             uint16_t *counts, size_t counts_n, uint32_t *journal, size_t journal_n, size_t *used,
                             const size_t *starts, size_t starts_n, const size_t *lens, size_t lens_n, uint32_t passes,
                             double *work, size_t work_n,
                             uint32_t *numbers, size_t numbers_n, size_t *values, size_t values_n,
                             uint32_t *orders, size_t orders_n);

/* Finds the dropouts, from the first on, and repairs each as cathar_inpaint_gap does. A dropout is a
 * longest run of
 *   at least 2 samples that are zeros or NaN, those of missing frames among them: all of it is the gap; or
 *   at least held_run samples of the same word, in range and not zero, as of a bus that went silent and holds its
 *   last word: the first sample was measured and stays, and the others are the gap. Nothing tells them from sound
 *   that is clipped, or stands still, at one word for as long: who declips does it before the scan. The usual
 *   held_run is CATHAR_HELD_RUN, by which 15 equal words are sound; at CATHAR_LEAST_HELD_RUN two equal words are a
 *   dropout already, whose gap is one sample.
 * It qualifies if its gap has at most as many samples as the limit and touches neither end of the recording. The
 * runs are those of the recording as the call began. The limit is (max_gap_ms/1000)*rate in floats, raised to 1 and
 * cut to a whole number; a product of +infinity means no limit.
 * A run whose repair is refused stays as it was, and the scan goes on after it. Each run that is repaired
 * has an entry of its own in the journal, so that cathar_undo takes back one run at a time.
 * work is lent to the repair of one run after the other, and left by each as cathar_inpaint_gap says; a run
 * for which it is too short has refusal 6. cathar_longest_gap_work(n, limit) doubles are enough for every run: at
 * most 4,788 where the limit is 48 samples.
 * orders is a list of orders_n words, of any contents. At each place of it where the scan repaired a sample by the
 * model it receives the order of that model, as cathar_inpaint_gap gives it. Every other place of it stays: of a sample
 * that was not repaired, of a run that was refused or became a straight line, and what lies behind the samples. Any
 * length is allowed, 0 among them: n words are for all samples, and a shorter list is written as far as it goes.
 * qualified receives the number of runs that qualify, and repaired that of those repaired; both receive 0
 * where refusal 1, 14, 2, 3 or 4 was given. What they held has no say. The answer is 0, or the number of the first
 * refusal: 1, 14, 2, 3 or 4 for the whole scan, which then changes nothing, work and orders among it, or 6 to 9 for a
 * run, beside which others may have been repaired.
 * Refusals: 1, 14, 2, 3, 4, 6, 7, 8, 9. Refusal 4 is given where
 *   rate exceeds CATHAR_MOST_RATE,
 *   max_gap_ms is an infinity or a NaN, or
 *   held_run is not CATHAR_LEAST_HELD_RUN..CATHAR_MOST_HELD_RUN. */
uint32_t cathar_inpaint_auto(uint32_t *samples, size_t n, uint8_t *marks, size_t marks_n,
                             uint16_t *counts, size_t counts_n, uint32_t *journal, size_t journal_n, size_t *used,
                             uint32_t rate, float max_gap_ms, uint32_t held_run,
                             double *work, size_t work_n, uint32_t *orders, size_t orders_n,
                             size_t *qualified, size_t *repaired);

/* The repairs that follow are over the whole recording. Each reads every sample, whatever its settings,
 * and works its results out in a workspace of words before it writes any. To name no sample is no refusal, and
 * makes no entry in the journal. A setting that is held to a..b counts as a where it is lower, and as b where it
 * is higher, infinities among them.
 * work is the workspace: work_n words, of any contents. Of these it needs as many as cathar_whole_work says, below:
 * the needed ones, from the first on, are all 0 after an acceptance or after refusal 8 or 9, and else they stay. All
 * others stay.
 * value receives the number m of named samples where it was accepted, which may be 0, for refusals 7 and 8 the
 * lowest place whose sample or result is not in range, and 0 for the others; what it held has no say.
 * Refusals of each: 1, 14, 2, 3, 4, 6, 7, 8, 9. */

/* How many words that workspace needs for n samples. */
static inline size_t cathar_whole_work(size_t n)
{
    return 2 * n;
}

/* Bridges clipped runs by a cubic: mark 3. A run is a longest stretch of samples with a magnitude at or above
 * the threshold, as they stood before the call, from s to before e. With a = max(0, s-4) and
 * z = min(min(e, n-1)+4, n-1), and where z exceeds a+4, it names and rewrites all places between a and z,
 * shoulders included, from the samples at a and z; runs go from left to right, each on what the ones before it
 * left.
 * Refusal 4 is given where threshold is a NaN, an infinity, or not above 0. */
uint32_t cathar_declip(uint32_t *samples, size_t n, uint8_t *marks, size_t marks_n,
                       uint16_t *counts, size_t counts_n, uint32_t *journal, size_t journal_n, size_t *used,
                       float threshold, uint32_t *work, size_t work_n, size_t *value);

/* Rewrites samples that stand out from the middle of their two neighbours by more than (12 - sensitivity) times
 * a running floor, each run of them by a cubic between its neighbours: mark 7. The sensitivity is held to 1..10.
 * The floor starts at the mean of how far the first CATHAR_MEAN_OVER samples stand out, or all where there are fewer,
 * but at 1e-6 at least; for this the ends count as 0.
 * Named are those that stand out; no end ever is, and in a recording of fewer than 8 samples none is.
 * Refusal 4 is given where sensitivity is a NaN. */
uint32_t cathar_decrackle(uint32_t *samples, size_t n, uint8_t *marks, size_t marks_n,
                          uint16_t *counts, size_t counts_n, uint32_t *journal, size_t journal_n, size_t *used,
                          float sensitivity, uint32_t *work, size_t work_n, size_t *value);

/* The same with the old start: mark 4. The floor starts at 1e-6, so that of a steady tone a hundred-odd samples at its
 * beginning are rewritten. This is what cathar_decrackle did before it started at the mean, and what the original Rust
 * does: who replays old cases, or compares with the Rust, asks for it by this name.
 * Refusal 4 is given where sensitivity is a NaN. */
uint32_t cathar_decrackle_old_start(uint32_t *samples, size_t n, uint8_t *marks, size_t marks_n,
                                    uint16_t *counts, size_t counts_n,
                                    uint32_t *journal, size_t journal_n, size_t *used,
                                    float sensitivity, uint32_t *work, size_t work_n, size_t *value);

/* Moves samples that were recorded with so many bits, in steps of 2/2^bits, toward what their neighbours predict:
 * mark 5. Each prediction is kept within half a step of the level nearest to the sample. bits is held to
 * CATHAR_LEAST_BITS..CATHAR_MOST_BITS and strength to 0..1. Where strength is above 0 and n at least 3 it names places
 * 1 to n-2, and else none.
 * Refusal 4 is given where strength is a NaN. */
uint32_t cathar_dequantize(uint32_t *samples, size_t n, uint8_t *marks, size_t marks_n,
                           uint16_t *counts, size_t counts_n, uint32_t *journal, size_t journal_n, size_t *used,
                           uint32_t bits, float strength, uint32_t *work, size_t work_n, size_t *value);

/* The same from two neighbours on either side, in as many iterations as are asked for and CATHAR_MOST_ITERATIONS
 * at most: mark 5.
 * Where strength and iterations are above 0 and n is at least 5 it names places 2 to n-3, and else none.
 * Refusal 4 is given where strength is a NaN. */
uint32_t cathar_dequantize_cosparse(uint32_t *samples, size_t n, uint8_t *marks, size_t marks_n,
                                    uint16_t *counts, size_t counts_n,
                                    uint32_t *journal, size_t journal_n, size_t *used,
                                    uint32_t bits, float strength, uint32_t iterations,
                                    uint32_t *work, size_t work_n, size_t *value);

/* Takes another program's proposal for the clipped samples: mark 8. Nothing of it is trusted. It is looked at word by
 * word, and taken only where every word keeps to the rule:
 *   of a sample whose magnitude is under the threshold the proposal has the very word, all 32 bits;
 *   a sample at or above the threshold is answered by one that is in range and at or above it;
 *   a sample at or below the negative threshold by one that is in range and at or below that.
 * So, whoever made the proposal, an accepted one changes no sample under the threshold, and leaves every other in range
 * and on its side of it. The threshold is all that limits how many samples a proposal may rewrite: at the least float
 * above 0 these are all but the zeros. The marks tell which they are.
 * What the original's project_gamma makes of candidates that are in range or NaN is always accepted, where the
 * recording is in range and the journal has room.
 * proposal is proposal_n words, each the pattern of a float; it is only read. Named are all samples whose magnitude is
 * at or above the threshold, also those whose proposed word is the one that they had. To name none is no refusal, and
 * makes no entry in the journal. There is no workspace.
 * value receives the number m of named samples where it was accepted, which may be 0, for refusal 7 the lowest place
 * whose sample is not in range, for refusal 15 the lowest place that breaks the rule, or 0 where proposal_n is not n,
 * and 0 for the others; what it held has no say.
 * Refusals: 1, 14, 2, 3, 4, 7, 15, 9. Refusal 4 is given where threshold is a NaN, an infinity, or not above 0. Every
 * sample is read. Refusal 15 is given where
 *   proposal_n is not n, or
 *   a word of the proposal breaks the rule. */
uint32_t cathar_declip_proposed(uint32_t *samples, size_t n, uint8_t *marks, size_t marks_n,
                                uint16_t *counts, size_t counts_n, uint32_t *journal, size_t journal_n, size_t *used,
                                float threshold, const uint32_t *proposal, size_t proposal_n, size_t *value);

/* The crackle detector flags samples as the sound arrives, when there is no whole recording yet for cathar_decrackle.
 * A run of it is announced by cathar_crackle_begin, or for the old start by cathar_crackle_begin_old_start, with the
 * number of all its samples. These are then given to cathar_crackle_piece in consecutive pieces of any length, 0 among
 * them, and cathar_crackle_end ends the run. Each sample gets a flag, in the samples' order: a byte that is 1 where the
 * sample is flagged, and else 0. Whether a sample stands out shows when the one behind it is in: its flag comes with
 * that one, so one sample late, and the flag of the last comes at the end. But where the floor starts at the mean, all
 * flags are held back as long as no more than CATHAR_MEAN_OVER samples are in: those of the first CATHAR_MEAN_OVER come
 * together, with the sample behind them, and where no more are announced, all come at the end.
 * Where all samples are in range, the flags of all calls joined are those of the whole recording, however it is cut:
 * flagged are exactly the samples that cathar_decrackle would name in it at the same sensitivity, and with the old
 * start those that cathar_decrackle_old_start would. The first and the last never are, and where fewer than 8 samples
 * are announced none is.
 *
 * Flags only tell. These calls know of no recording, rewrite no sample and set no mark.
 *
 * state is state_n words, of which the first CATHAR_CRACKLE_STATE are the library's from the announcement on, with
 * either start: the running floor, the last two samples, what it counts by, and what it holds flags back for. Nothing
 * else of a run is kept anywhere, so that runs side by side have a state each, and a run may go on from a copy of these
 * bytes, elsewhere or later. Who writes them gets flags that say nothing. Words behind them stay.
 *
 * flags is the room for the flags of one call, flags_n bytes of any contents. The call writes them from the first byte
 * on, and nothing behind them; where it is refused, nothing at all.
 * value receives how many flags the call gave, for refusal 7 the sample's place, counted from the first one of the run,
 * and 0 for the other refusals; what it held has no say.
 *
 * A run is over when it was ended, and it is stopped, and so over too, by refusals 13 and 7. From then on each piece,
 * an empty one too, and each end is refused by 13, until a run is announced anew. The flags that were given before
 * stand; the piece that stops a run gives none, and those that are held back never come. Refusal 6 takes nothing in,
 * leaves the state as it was, and stops nothing: the same call may be made again with more room.
 *
 * No two areas overlap, value among them, and no pointer is null, not even that of an area of length 0. */

/* Announces a run of total samples, with a floor that starts at the mean. What the state held has no say, so that one
 * that is not over is given up. The sensitivity is held to 1..10, as in cathar_decrackle. Where it was refused, the
 * state stays as it was.
 * Refusals: 6, 2, 4, tested in this order. They are given where
 *   6    state_n is less than CATHAR_CRACKLE_STATE,
 *   2    total exceeds CATHAR_MOST_SAMPLES, and
 *   4    sensitivity is a NaN. */
uint32_t cathar_crackle_begin(size_t total, float sensitivity, uint32_t *state, size_t state_n);

/* The same with the old start, as cathar_decrackle_old_start has it: no flag is held back.
 * Refusals: 6, 2, 4, as above. */
uint32_t cathar_crackle_begin_old_start(size_t total, float sensitivity, uint32_t *state, size_t state_n);

/* Gives the run its next piece_n samples, each a word as those of a recording are. It gives a flag for each of them,
 * that of the sample before it; the very first of the run gives none. So with the old start piece_n flags come, and one
 * less as long as no sample was in; room for piece_n is always enough. From the mean none comes as long as no more than
 * CATHAR_MEAN_OVER samples are in, and with the piece that passes this number come those of all samples of the run but
 * the last: room for piece_n + CATHAR_MEAN_OVER - 1 is always enough.
 * Refusals: 13, 6, 7, tested in this order, but 6 before all else where the state is too short. They are given where
 *   13   the run is over, or with this piece there are more samples than were announced: the run is stopped,
 *   6    flags_n is less than the number of these flags, or state_n than CATHAR_CRACKLE_STATE, and
 *   7    a sample of the piece is not in range, the lowest such place being told: the run is stopped. */
uint32_t cathar_crackle_piece(uint32_t *state, size_t state_n, const uint32_t *piece, size_t piece_n,
                              uint8_t *flags, size_t flags_n, size_t *value);

/* Ends the run, and gives the flags that are still to come: that of its last sample, and none where 0 samples were
 * announced; but from the mean those of all samples where no more than CATHAR_MEAN_OVER were announced. Room for so
 * many is always enough.
 * Refusals: 13, 6, tested in this order, but 6 before all else where the state is too short. They are given where
 *   13   the run is over, or fewer samples are in than were announced: the run is stopped, and
 *   6    flags_n is less than the number of these flags, or state_n than CATHAR_CRACKLE_STATE. */
uint32_t cathar_crackle_end(uint32_t *state, size_t state_n, uint8_t *flags, size_t flags_n, size_t *value);

/* A recorder's settings are kept in a stored block. All its numbers have 32 bits and the lowest byte first:
 *   the version, 1 or 2;
 *   the contents: how many parts there are, CATHAR_SETTINGS_V1 or CATHAR_SETTINGS, and for each of them its number,
 *   its offset and its length in bytes, which is 4. Parts are numbered from 1, and offsets count from the block's first
 *   byte, which is the version's: the first is 80 in version 1, and 92 in version 2;
 *   the parts themselves, one word each, in the order of their numbers and touching; and nothing behind the last.
 * So there is just one block of a version for a list of settings: CATHAR_SETTINGS_V1_BYTES or CATHAR_SETTINGS_BYTES
 * bytes. The parts, of which the last is in version 2 alone, and what is allowed, as the calls that take them have it:
 *   1  threshold, of cathar_declip           a float that is finite and above 0
 *   2  sensitivity, of cathar_decrackle      any float but a NaN, infinities among them
 *   3  strength, of cathar_dequantize        any float but a NaN, infinities among them
 *   4  bits, of cathar_dequantize            any number
 *   5  max_gap_ms, of cathar_inpaint_auto    any finite float
 *   6  rate, of cathar_inpaint_auto          a number up to CATHAR_MOST_RATE
 *   7  held_run, of cathar_inpaint_auto      CATHAR_LEAST_HELD_RUN..CATHAR_MOST_HELD_RUN
 * settings are settings_n words, in the order of the parts; a float is its pattern. A call uses as many as there are
 * parts, from the first on, and does not touch those behind them.
 * Where a block is read and its settings are written in its version, the same bytes come; and where settings are
 * written and read, the same words.
 *
 * A call that is refused writes nothing. Block and settings do not overlap, and no pointer is null, not even that of an
 * area of length 0.
 *
 * The readers. The block is block_n bytes, all of them, and is only read.
 * Refusals: 6, 17, 18, tested in this order, but 18 before 17 where there is no version. They are given where
 *   6    settings_n is less than the number of settings that the reader gives,
 *   17   the reader does not know the version, 0 being unknown to both, whatever follows it, and
 *   18   the block is too short to have a version, which is 4 bytes; it is not of the form above, to the last byte; or
 *        a setting is not allowed. */

/* Reads a block of version 1 or 2, and gives CATHAR_SETTINGS settings. Those of a version 1 block have CATHAR_HELD_RUN
 * for the last. */
uint32_t cathar_read_settings(const uint8_t *block, size_t block_n, uint32_t *settings, size_t settings_n);

/* Reads a block of version 1, and gives CATHAR_SETTINGS_V1 settings: those that cathar_read_settings gives of it, but
 * for the last. It does not know version 2: a block of it is refused by 17, and nothing of it is shown. */
uint32_t cathar_read_settings_v1(const uint8_t *block, size_t block_n, uint32_t *settings, size_t settings_n);

/* The writers. The settings are only read. Of the room for the block, block_n bytes of any contents, as many are written
 * as the block has, from the first on, and those behind them stay.
 * Refusals: 6, 18, tested in this order. They are given where
 *   6    settings_n is less than the number of the version's settings, or block_n than that of its bytes, and
 *   18   a setting is not allowed. */

/* Writes CATHAR_SETTINGS settings as a block of version 2: CATHAR_SETTINGS_BYTES bytes. */
uint32_t cathar_write_settings(const uint32_t *settings, size_t settings_n, uint8_t *block, size_t block_n);

/* Writes CATHAR_SETTINGS_V1 settings as a block of version 1: CATHAR_SETTINGS_V1_BYTES bytes. */
uint32_t cathar_write_settings_v1(const uint32_t *settings, size_t settings_n, uint8_t *block, size_t block_n);

/* WAV files of mono 16-bit PCM go in and out. Of a file the first 12 bytes are `RIFF`, a size and `WAVE`. Behind them
 * come chunks, each of four letters of name, a size, as many bytes of body, and one byte more where the size is odd,
 * also behind the last chunk. Sizes have 32 bits, and all numbers the lowest byte first.
 *   fmt    the first chunk named `fmt ` (with a space) that has 16 bytes or more: the format tag, which is 1 for PCM,
 *          and the channels, of 16 bits each; the rate and the bytes a second, of 32 each; the block align and the bits
 *          of a sample, of 16 each. A chunk of this name that has fewer bytes counts as none
 *   data   the first chunk named `data`: the samples, each a whole number of 16 bits, from -32,768 to 32,767
 * Every other chunk is skipped, before, between and behind these, a second fmt or data among them.
 * Bytes a second, block align, what stands behind the 16 bytes of fmt, and the value of the byte behind an odd body
 * have no say. Any rate is taken, 0 too.
 *
 * No two areas overlap, n, rate and value among them, and no pointer is null, not even that of an area of length 0. A
 * call that is refused writes nothing but these numbers. */

/* Reads a WAV file, file_n bytes, which are only read, into samples and marks: value v becomes the sample v/32,768,
 * exactly, so from -1 to just below 1, and its mark 0. n receives the number of samples and rate the file's rate; both
 * receive 0 where it was refused, and what they held has no say. Of samples and marks the first n are written, and
 * nothing behind them. Either room may be longer than needed, each on its own; CATHAR_MOST_SAMPLES of either are always
 * enough. A file without a sample is accepted.
 * cathar_open on the result makes the recording: it and all later calls are lent just n samples and n marks.
 * Refusals: 19, 20, 2, 21, tested in this order. They are given where
 *   19   file_n is not 8 plus the size behind `RIFF`; the names `RIFF` and `WAVE` do not stand where they should; the
 *        chunks, with the byte behind each odd one, do not fill the file to its last byte; there is no such fmt, or no
 *        data, or data before fmt; or the data have an odd number of bytes,
 *   20   the format tag is not 1, the channels are not 1, or the bits not 16. The extensible header, of tag 65,534, is
 *        refused so too, also where the samples are mono 16-bit PCM,
 *   2    there are more than CATHAR_MOST_SAMPLES samples, and
 *   21   samples_n or marks_n is less than their number. */
uint32_t cathar_read_wav(const uint8_t *file, size_t file_n, uint32_t *samples, size_t samples_n,
                         uint8_t *marks, size_t marks_n, size_t *n, uint32_t *rate);

/* Writes n samples, which are only read, as a WAV file at this rate, any rate: `RIFF`, a fmt chunk of 16 bytes, and the
 * data, cathar_wav_bytes(n) bytes in all: CATHAR_WAV_HEADER_BYTES, and 2 for each sample. The bytes a second that it
 * says are twice the rate, modulo 2^32. Each value is the sample times 32,768, rounded to whole with halves away from
 * zero, and held to -32,768..32,767: so a sample that cathar_read_wav gave becomes the value that it was, and 1 becomes
 * 32,767. Of out, out_n bytes of any contents, the file is written from the first byte on, and bytes behind it are
 * never touched. Marks have no place in a WAV file: which samples a repair made is not told by it.
 * value receives how many bytes were written, for refusal 7 the lowest place whose sample is not in range, and 0 for
 * the others; what it held has no say.
 * Refusals: 2, 7, 21, tested in this order. They are given where
 *   2    n exceeds CATHAR_MOST_SAMPLES,
 *   7    a sample is not in range, and
 *   21   out_n is less than the number of bytes. */
uint32_t cathar_write_wav(const uint32_t *samples, size_t n, uint32_t rate, uint8_t *out, size_t out_n, size_t *value);

/* How many bytes the file of n samples has. */
static inline size_t cathar_wav_bytes(size_t n)
{
    return CATHAR_WAV_HEADER_BYTES + 2 * n;
}

#ifdef __cplusplus
}
#endif

#endif
