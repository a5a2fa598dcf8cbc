/* Flags crackle from C while the sound arrives, in pieces of 480 samples. On x86-64, from the repository's root, with
 * the library that `./staticlib` proves and builds:
 *
 *     cc -I include examples/crackle.c target/staticlib/libcathar.a -o crackle
 *     ./crackle
 *
 * The sound is 2,000 samples of a steady hum with three clicks in it, at 300, 959 and 1700. For each piece and for the
 * end it prints how many flags came, from which sample on, and which samples are flagged.
 *
 *     piece of 480 from 0 on: 0 flags from 0 on, flagged none
 *     piece of 480 from 480 on: 0 flags from 0 on, flagged none
 *     piece of 480 from 960 on: 1439 flags from 0 on, flagged 299 300 301 958 959 960
 *     piece of 480 from 1440 on: 480 flags from 1439 on, flagged 1699 1700 1701
 *     piece of 80 from 1920 on: 80 flags from 1919 on, flagged none
 *     end: 1 flag from 1999 on, flagged none
 *     piece of 0 after the end: answer 13
 *     old start, piece of 480 from 0 on: 479 flags, 140 of them set
 *
 * The floor starts at the mean over the first 1,024 samples, and until these are judged all flags are held back: the
 * third piece, with which more than 1,024 samples are in, gives those of all samples but its own last. From there on a
 * flag comes one sample late, with the sample behind its own; and that of the very last one comes at the end. A click
 * stands out, and with it its two neighbours. After the end the run is over: every piece is refused by 13,
 * CATHAR_REFUSED_PIECES, until another run is announced.
 *
 * With the old start, which has to be asked for by its name, nothing is held back, so that the first piece gives one
 * flag less than it has samples; but its floor starts at 1e-6, and the beginning of the hum is flagged too. */
#include "cathar.h"

#include <inttypes.h>
#include <stdio.h>
#include <string.h>

#define TOTAL 2000                           /* samples */
#define PIECE 480                            /* samples */
#define ROOM (PIECE + CATHAR_MEAN_OVER - 1)  /* for flags, which is always enough */
#define SENSITIVITY 5.0f                     /* 1 to 10: flagged is what stands out by more than 12 - 5 floors */

/* The sample at this place, as its word: arches of 400 samples, up and down in turn, and the clicks. All are whole
 * multiples of 1/16384, so that nothing is rounded. */
static uint32_t sample(size_t place)
{
    int32_t within = (int32_t)(place % 400);
    int32_t arch = within * (400 - within);
    int32_t hum = place / 400 % 2 == 0 ? arch : -arch;
    int32_t click = place == 300 || place == 959 || place == 1700 ? 16384 : 0;
    float x = (float)(hum + click) / 16384;
    uint32_t word;
    memcpy(&word, &x, sizeof word);
    return word;
}

/* Lays the n samples from this one on into the piece. */
static void fill(uint32_t *piece, size_t from, size_t n)
{
    for (size_t i = 0; i < n; i++)
        piece[i] = sample(from + i);
}

/* Prints how many flags came, from this sample on, and which samples are flagged. */
static void show(const uint8_t *flags, size_t given, size_t from)
{
    int none = 1;
    printf("%zu flag%s from %zu on, flagged", given, given == 1 ? "" : "s", from);
    for (size_t i = 0; i < given; i++)
        if (flags[i]) {
            printf(" %zu", from + i);
            none = 0;
        }
    printf("%s\n", none ? " none" : "");
}

int main(void)
{
    uint32_t state[CATHAR_CRACKLE_STATE];
    uint32_t piece[PIECE];
    uint8_t flags[ROOM];
    size_t value, given = 0, set = 0;

    if (cathar_crackle_begin(TOTAL, SENSITIVITY, state, CATHAR_CRACKLE_STATE) != CATHAR_ACCEPTED)
        return 1;
    for (size_t from = 0; from < TOTAL; from += PIECE) {
        size_t n = TOTAL - from < PIECE ? TOTAL - from : PIECE;
        fill(piece, from, n);
        if (cathar_crackle_piece(state, CATHAR_CRACKLE_STATE, piece, n, flags, ROOM, &value) != CATHAR_ACCEPTED)
            return 1;
        printf("piece of %zu from %zu on: ", n, from);
        show(flags, value, given);
        given += value;
    }
    if (cathar_crackle_end(state, CATHAR_CRACKLE_STATE, flags, ROOM, &value) != CATHAR_ACCEPTED)
        return 1;
    printf("end: ");
    show(flags, value, given);

    printf("piece of 0 after the end: answer %" PRIu32 "\n",
           cathar_crackle_piece(state, CATHAR_CRACKLE_STATE, piece, 0, flags, ROOM, &value));

    if (cathar_crackle_begin_old_start(TOTAL, SENSITIVITY, state, CATHAR_CRACKLE_STATE) != CATHAR_ACCEPTED)
        return 1;
    fill(piece, 0, PIECE);
    if (cathar_crackle_piece(state, CATHAR_CRACKLE_STATE, piece, PIECE, flags, ROOM, &value) != CATHAR_ACCEPTED)
        return 1;
    for (size_t i = 0; i < value; i++)
        set += flags[i];
    printf("old start, piece of %d from 0 on: %zu flags, %zu of them set\n", PIECE, value, set);
    return 0;
}
