/* Proposes samples for a clipped top from C, and takes them back. On x86-64, from the repository's root, with the
 * library that `./staticlib` proves and builds:
 *
 *     cc -I include examples/propose.c target/staticlib/libcathar.a -o propose
 *     ./propose
 *
 * It prints a line for each of four calls: the answer, the value, and each sample's word and mark, in hex; and for the
 * third whether it has changed anything.
 *
 *     open:  answer 0, value 0, 00000000:0 3f200000:0 3f800000:0 3f800000:0 3f800000:0 3f200000:0 00000000:0
 *     taken: answer 0, value 3, 00000000:0 3f200000:0 3f800000:8 3f880000:8 3f800000:8 3f200000:0 00000000:0
 *     other: answer 15, value 1, 00000000:0 3f200000:0 3f800000:8 3f880000:8 3f800000:8 3f200000:0 00000000:0
 *     changed by the other: nothing
 *     undo:  answer 0, value 3, 00000000:0 3f200000:0 3f800000:0 3f800000:0 3f800000:0 3f200000:0 00000000:0
 *
 * The recording is an arch of 7 samples, 0, 0.625, 1, 1, 1, 0.625 and 0, that was cut off at 1. How its top is drawn
 * anew is this program's own affair, and the library trusts nothing of it: a proposal has to have the very words of all
 * samples under the threshold, and for each of the others one at or above it. The first keeps to that. It names three
 * samples, marked 8, CATHAR_MARK_DECLIP_PROPOSED, of which two keep their word. The other proposal smooths the slope
 * too, at place 1, which was never cut off: it is refused by 15, CATHAR_REFUSED_PROPOSAL, with that place. After the
 * undo all samples are as measured. */
#include "cathar.h"

#include <inttypes.h>
#include <stdio.h>
#include <string.h>

#define N 7              /* samples */
#define COUNTS 1         /* numbers: cathar_counts(N), one for each block */
#define JOURNAL 23       /* words: cathar_journal_words(N, 1), for one repair, whatever it names */
#define THRESHOLD 1.0f   /* where the samples were cut off */

static float float_of(uint32_t word)
{
    float x;
    memcpy(&x, &word, sizeof x);
    return x;
}

static uint32_t word_of(float x)
{
    uint32_t word;
    memcpy(&word, &x, sizeof word);
    return word;
}

/* An arch, as the recording may have been before it was cut off, and drawn a little too low. */
static float candidate(size_t place)
{
    return (float)(place * (N - 1 - place)) / 8 - 0.0625f;
}

/* Proposes for each sample at the threshold or above it the candidate, or the threshold where that is lower, and for
 * every other its own word. (None of these is below the negative threshold, which would be as much to look at.) */
static void propose(const uint32_t *samples, uint32_t *proposal)
{
    for (size_t i = 0; i < N; i++) {
        float x = candidate(i) > THRESHOLD ? candidate(i) : THRESHOLD;
        proposal[i] = float_of(samples[i]) >= THRESHOLD ? word_of(x) : samples[i];
    }
}

/* Prints what a call gave, and what it left. */
static void show(const char *call, uint32_t answer, size_t value, const uint32_t *samples, const uint8_t *marks)
{
    printf("%s answer %" PRIu32 ", value %zu,", call, answer, value);
    for (size_t i = 0; i < N; i++)
        printf(" %08" PRIx32 ":%x", samples[i], (unsigned)marks[i]);
    printf("\n");
}

int main(void)
{
    /* Each word is a float's pattern: 0x3f200000 is 0.625, and 0x3f800000 is 1. */
    uint32_t samples[N] = {0, 0x3f200000, 0x3f800000, 0x3f800000, 0x3f800000, 0x3f200000, 0};
    uint32_t proposal[N], before[N];
    uint8_t marks[N];
    uint16_t counts[COUNTS];
    uint32_t journal[JOURNAL];
    size_t used, value;

    if (COUNTS != cathar_counts(N) || JOURNAL != cathar_journal_words(N, 1))
        return 1;

    /* Open raw samples, and once: a second opening would mark made samples as measured. */
    uint32_t answer = cathar_open(samples, N, marks, N, counts, COUNTS, journal, JOURNAL, &used);
    if (answer != CATHAR_ACCEPTED)
        return 1;
    show("open: ", answer, 0, samples, marks);

    /* The proposal is lent beside the recording, and only read. There is no workspace. */
    propose(samples, proposal);
    answer = cathar_declip_proposed(samples, N, marks, N, counts, COUNTS, journal, JOURNAL, &used, THRESHOLD,
                                    proposal, N, &value);
    show("taken:", answer, value, samples, marks);

    /* The other proposal, for the recording as it is now, has another word for a sample under the threshold. A refusal
     * leaves everything as it is. */
    memcpy(before, samples, sizeof before);
    propose(samples, proposal);
    proposal[1] = word_of(0.6875f);
    answer = cathar_declip_proposed(samples, N, marks, N, counts, COUNTS, journal, JOURNAL, &used, THRESHOLD,
                                    proposal, N, &value);
    show("other:", answer, value, samples, marks);
    printf("changed by the other: %s\n", memcmp(before, samples, sizeof before) == 0 ? "nothing" : "samples");

    answer = cathar_undo(samples, N, marks, N, counts, COUNTS, journal, JOURNAL, &used, &value);
    show("undo: ", answer, value, samples, marks);
    return 0;
}
