/* Repairs a recording of six samples from C, and takes the repair back. On x86-64, from the repository's root,
 * with the library that `./staticlib` proves and builds:
 *
 *     cc -I include examples/repair.c target/staticlib/libcathar.a -o repair
 *     ./repair
 *
 * It prints a line for each of three calls: the answer, the value, and each sample's word and mark, in hex; after each
 * whether all samples are measured, and whether the first two are; and of the repair how far its model got.
 *
 *     open: answer 0, value 0, 30800000:0 30800000:0 00000000:0 00000000:0 30800000:0 30800000:0
 *     all measured: yes, the first two: yes
 *     gap:  answer 0, value 2, 30800000:0 30800000:0 80000000:1 00000000:1 30800000:0 30800000:0
 *     all measured: no, the first two: yes
 *     order of the model: 0 of 32
 *     undo: answer 0, value 2, 30800000:0 30800000:0 00000000:0 00000000:0 30800000:0 30800000:0
 *     all measured: yes, the first two: yes
 *
 * The two samples of the gap became -0 and +0 and are marked 1, CATHAR_MARK_GAP_BY_MODEL; the others are as measured.
 * These are so quiet that the model broke off at once: its order is 0. After the undo all samples are as measured. */
#include "cathar.h"

#include <inttypes.h>
#include <stdio.h>

#define N 6         /* samples */
#define COUNTS 1    /* numbers: cathar_counts(N), one for each block */
#define JOURNAL 20  /* words: cathar_journal_words(N, 1), for one repair, whatever it names */
#define WORK 210    /* doubles: cathar_gap_work(N, 2, 2), for a gap of 2 samples from place 2 on */

/* Whether the samples of a span are all measured. It is asked of marks and counts that these calls alone wrote. */
static const char *measured(const uint8_t *marks, const uint16_t *counts, size_t start, size_t len)
{
    uint32_t yes;
    if (cathar_measured(marks, N, counts, COUNTS, start, len, &yes) != CATHAR_ACCEPTED)
        return "refused";
    return yes == 1 ? "yes" : "no";
}

/* Prints what a call gave, and what it left. */
static void show(const char *call, uint32_t answer, size_t value, const uint32_t *samples, const uint8_t *marks,
                 const uint16_t *counts)
{
    printf("%s answer %" PRIu32 ", value %zu,", call, answer, value);
    for (size_t i = 0; i < N; i++)
        printf(" %08" PRIx32 ":%x", samples[i], (unsigned)marks[i]);
    printf("\nall measured: %s, the first two: %s\n", measured(marks, counts, 0, N), measured(marks, counts, 0, 2));
}

int main(void)
{
    /* Each word is a float's pattern: 0x30800000 is 2^-30. (memcpy makes a word of a float.) */
    uint32_t samples[N] = {0x30800000, 0x30800000, 0, 0, 0x30800000, 0x30800000};
    uint8_t marks[N];
    uint16_t counts[COUNTS];
    uint32_t journal[JOURNAL];
    size_t used, value;
    uint32_t order;
    static double work[WORK];

    if (COUNTS != cathar_counts(N) || JOURNAL != cathar_journal_words(N, 1) || WORK != cathar_gap_work(N, 2, 2))
        return 1;

    /* Opening writes marks, counts, journal and used, so that what they held does not matter. Open raw samples, and
     * once: a second opening would mark made samples as measured. */
    uint32_t answer = cathar_open(samples, N, marks, N, counts, COUNTS, journal, JOURNAL, &used);
    if (answer != CATHAR_ACCEPTED)
        return 1;
    show("open:", answer, 0, samples, marks, counts);

    /* The gap of 2 samples from place 2 on, in 1 pass. A refusal would leave samples, marks and counts as they are. */
    answer = cathar_inpaint_gap(samples, N, marks, N, counts, COUNTS, journal, JOURNAL, &used, 2, 2, 1, work, WORK,
                                &value, &order);
    show("gap: ", answer, value, samples, marks, counts);
    /* For a gap of up to 32 samples the highest order is 32. */
    printf("order of the model: %" PRIu32 " of 32\n", order);

    answer = cathar_undo(samples, N, marks, N, counts, COUNTS, journal, JOURNAL, &used, &value);
    show("undo:", answer, value, samples, marks, counts);
    return 0;
}
