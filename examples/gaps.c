/* Repairs three gaps in one call from C, of which one is refused, and takes the last one back. On x86-64, from the
 * repository's root, with the library that `./staticlib` proves and builds:
 *
 *     cc -I include examples/gaps.c target/staticlib/libcathar.a -o gaps
 *     ./gaps
 *
 * It prints each sample's word and mark, in hex, and how many journal words are taken: when the recording is opened,
 * after the call, and after an undo. Of each gap it prints what came to stand in its place of the three lists.
 *
 *     open: 3f800000:0 3f800000:0 00000000:0 3f800000:0 3f800000:0 00000000:0 00000000:0 3f800000:0, used 0
 *     gap of 1 from 2 on: answer 0, value 1, order 32
 *     gap of 2 from 7 on: answer 5, value 0, order 0
 *     gap of 2 from 5 on: answer 0, value 2, order 32
 *     gaps: 3f800000:0 3f800000:0 3d23a03a:1 3f800000:0 3f800000:0 3dd0df31:1 3e4a0c9d:1 3f800000:0, used 13
 *     undo: 3f800000:0 3f800000:0 3d23a03a:1 3f800000:0 3f800000:0 00000000:0 00000000:0 3f800000:0, used 5
 *
 * The gap from 7 on reaches past the end: it is refused by 5, CATHAR_REFUSED_GAP, and the one behind it is repaired all
 * the same, on what the first one left. Each of the two has a journal entry of its own, of 3*len+2 words, and the undo
 * takes back the last one alone. */
#include "cathar.h"

#include <inttypes.h>
#include <stdio.h>

#define N 8         /* samples */
#define COUNTS 1    /* numbers: cathar_counts(N), one for each block */
#define GAPS 3      /* gaps, of 2 samples at most */
#define JOURNAL 78  /* words: cathar_journal_words(N, GAPS), for so many repairs, whatever they name */
#define WORK 212    /* doubles: cathar_longest_gap_work(N, 2), for any gap of up to 2 samples */

/* Prints each sample's word and mark, in hex, and how many journal words are taken. */
static void show(const char *when, const uint32_t *samples, const uint8_t *marks, size_t used)
{
    printf("%s", when);
    for (size_t i = 0; i < N; i++)
        printf(" %08" PRIx32 ":%x", samples[i], (unsigned)marks[i]);
    printf(", used %zu\n", used);
}

int main(void)
{
    /* Each word is a float's pattern: 0x3f800000 is 1. */
    uint32_t samples[N] = {0x3f800000, 0x3f800000, 0, 0x3f800000, 0x3f800000, 0, 0, 0x3f800000};
    uint8_t marks[N];
    uint16_t counts[COUNTS];
    uint32_t journal[JOURNAL];
    size_t used, value;
    static double work[WORK];

    /* The sample at 2; two from 7 on, where there is only one; and the two from 5 on. */
    const size_t starts[GAPS] = {2, 7, 5};
    const size_t lens[GAPS] = {1, 2, 2};
    uint32_t numbers[GAPS], orders[GAPS];
    size_t values[GAPS];

    if (COUNTS != cathar_counts(N) || JOURNAL != cathar_journal_words(N, GAPS) || WORK != cathar_longest_gap_work(N, 2))
        return 1;
    if (cathar_open(samples, N, marks, N, counts, COUNTS, journal, JOURNAL, &used) != CATHAR_ACCEPTED)
        return 1;
    show("open:", samples, marks, used);

    /* The call is accepted whatever becomes of the gaps: each has an answer of its own in its own place. */
    if (cathar_inpaint_gaps(samples, N, marks, N, counts, COUNTS, journal, JOURNAL, &used, starts, GAPS, lens, GAPS, 1,
                            work, WORK, numbers, GAPS, values, GAPS, orders, GAPS) != CATHAR_ACCEPTED)
        return 1;
    for (size_t k = 0; k < GAPS; k++)
        printf("gap of %zu from %zu on: answer %" PRIu32 ", value %zu, order %" PRIu32 "\n", lens[k], starts[k],
               numbers[k], values[k], orders[k]);
    show("gaps:", samples, marks, used);

    if (cathar_undo(samples, N, marks, N, counts, COUNTS, journal, JOURNAL, &used, &value) != CATHAR_ACCEPTED)
        return 1;
    show("undo:", samples, marks, used);
    return 0;
}
