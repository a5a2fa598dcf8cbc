/* Keeps a recorder's settings in a stored block from C, reads that of an older recorder, and scans a recording by each.
 * On x86-64, from the repository's root, with the library that `./staticlib` proves and builds:
 *
 *     cc -I include examples/settings.c target/staticlib/libcathar.a -o settings
 *     ./settings
 *
 * It prints a line for each call: the answer, and then of a block its length, first two words and last one; of settings
 * all words; and of a scan how many runs qualified and were repaired, and then the place, word and mark of each sample
 * that is not measured. All words are in hex.
 *
 *     written:    answer 0, 120 bytes: 00000002 00000007 .. 00000004
 *     read:       answer 0, 3f7ae148 40c00000 3f000000 00000010 3f800000 0000bb80 00000004
 *     by v1:      answer 17, 00000000 00000000 00000000 00000000 00000000 00000000
 *     older:      answer 0, 104 bytes: 00000001 00000006 .. 0000bb80
 *     older:      answer 0, 3f7ae148 40c00000 3f000000 00000010 3f800000 0000bb80 00000010
 *     scan at 16: answer 0, qualified 0, repaired 0:
 *     scan at  4: answer 0, qualified 1, repaired 1: 3:3cf85bd9:1 4:bc435bfd:1 5:bcd5106c:1
 *
 * The settings are a threshold of 0.98, a sensitivity of 6, a strength of 0.5, 16 bits, 1 ms for the longest gap, a
 * rate of 48,000, and 4 for the held run. As a block of version 2 they are read by the new reader alone: the version 1
 * reader refuses them by 17, CATHAR_REFUSED_VERSION, and leaves its area as it was. The older recorder wrote version 1,
 * which has no held run: the new reader gives it 16, CATHAR_HELD_RUN. The recording has four equal words from place 2
 * on. By the older settings they are sound. By the new ones the bus held its last word: the first of the four was
 * measured, and the other three are a gap, marked 1, CATHAR_MARK_GAP_BY_MODEL. */
#include "cathar.h"

#include <inttypes.h>
#include <stdio.h>
#include <string.h>

#define N 10         /* samples */
#define COUNTS 1     /* numbers: cathar_counts(N), one for each block */
#define JOURNAL 33   /* words: cathar_scan_words(N, 4), for one scan at that held run */
#define WORK 502     /* doubles: cathar_longest_gap_work(N, 48), for the longest gap that the scan repairs */

/* The places of the settings that a scan takes: each is one lower than the number of its part. */
enum { MAX_GAP_MS = 4, RATE = 5, HELD_RUN = 6 };

static float float_of(uint32_t word)
{
    float x;
    memcpy(&x, &word, sizeof x);
    return x;
}

static uint32_t word_of(float x)
{
    uint32_t word;
    memcpy(&word, &x, sizeof word);
    return word;
}

/* The word of four bytes, lowest byte first. */
static uint32_t word_at(const uint8_t *bytes)
{
    return bytes[0] | (uint32_t)bytes[1] << 8 | (uint32_t)bytes[2] << 16 | (uint32_t)bytes[3] << 24;
}

static void show_block(const char *call, uint32_t answer, const uint8_t *block, size_t bytes)
{
    printf("%s answer %" PRIu32 ", %zu bytes:", call, answer, bytes);
    printf(" %08" PRIx32 " %08" PRIx32 " .. %08" PRIx32 "\n", word_at(block), word_at(block + 4),
           word_at(block + bytes - 4));
}

static void show_settings(const char *call, uint32_t answer, const uint32_t *settings, size_t count)
{
    printf("%s answer %" PRIu32 ",", call, answer);
    for (size_t i = 0; i < count; i++)
        printf(" %08" PRIx32, settings[i]);
    printf("\n");
}

int main(void)
{
    uint32_t settings[CATHAR_SETTINGS] = {word_of(0.98f), word_of(6), word_of(0.5f), 16, word_of(1), 48000, 4};
    uint32_t ours[CATHAR_SETTINGS], older[CATHAR_SETTINGS], none[CATHAR_SETTINGS_V1] = {0};
    uint8_t block[CATHAR_SETTINGS_BYTES], older_block[CATHAR_SETTINGS_V1_BYTES];

    /* Each word is a float's pattern. */
    float sound[N] = {0.5f, -0.25f, 0.125f, 0.125f, 0.125f, 0.125f, -0.5f, 0.75f, 0.25f, -0.125f};
    uint32_t samples[N], journal[JOURNAL], orders[N];
    uint8_t marks[N];
    uint16_t counts[COUNTS];
    double work[WORK];
    size_t used, qualified, repaired;

    if (COUNTS != cathar_counts(N) || JOURNAL != cathar_scan_words(N, 4) || WORK != cathar_longest_gap_work(N, 48))
        return 1;

    /* The settings go into a block, and come back from it. The version 1 reader does not know it. */
    uint32_t answer = cathar_write_settings(settings, CATHAR_SETTINGS, block, sizeof block);
    show_block("written:   ", answer, block, sizeof block);
    answer = cathar_read_settings(block, sizeof block, ours, CATHAR_SETTINGS);
    show_settings("read:      ", answer, ours, CATHAR_SETTINGS);
    answer = cathar_read_settings_v1(block, sizeof block, none, CATHAR_SETTINGS_V1);
    show_settings("by v1:     ", answer, none, CATHAR_SETTINGS_V1);

    /* The older recorder had the same settings, as far as it knew them. */
    answer = cathar_write_settings_v1(settings, CATHAR_SETTINGS_V1, older_block, sizeof older_block);
    show_block("older:     ", answer, older_block, sizeof older_block);
    answer = cathar_read_settings(older_block, sizeof older_block, older, CATHAR_SETTINGS);
    show_settings("older:     ", answer, older, CATHAR_SETTINGS);

    for (size_t i = 0; i < N; i++)
        samples[i] = word_of(sound[i]);
    /* Open raw samples, and once: a second opening would mark made samples as measured. */
    if (cathar_open(samples, N, marks, N, counts, COUNTS, journal, JOURNAL, &used) != CATHAR_ACCEPTED)
        return 1;
    const uint32_t *by[2] = {older, ours};
    for (size_t turn = 0; turn < 2; turn++) {
        answer = cathar_inpaint_auto(samples, N, marks, N, counts, COUNTS, journal, JOURNAL, &used, by[turn][RATE],
                                     float_of(by[turn][MAX_GAP_MS]), by[turn][HELD_RUN], work, WORK, orders, N,
                                     &qualified, &repaired);
        printf("scan at %2" PRIu32 ": answer %" PRIu32 ", qualified %zu, repaired %zu:", by[turn][HELD_RUN], answer,
               qualified, repaired);
        for (size_t i = 0; i < N; i++)
            if (marks[i] != CATHAR_MARK_MEASURED)
                printf(" %zu:%08" PRIx32 ":%x", i, samples[i], (unsigned)marks[i]);
        printf("\n");
    }
    return 0;
}
