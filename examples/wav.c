/* Reads a WAV file from C, repairs a gap in it, and writes it again. On x86-64, from the repository's root, with the
 * library that `./staticlib` proves and builds:
 *
 *     cc -I include examples/wav.c target/staticlib/libcathar.a -o wav
 *     ./wav
 *
 * It prints a line for each call: the answer, and then of a reading how many samples there are and their rate, of the
 * repair how many samples it names, and of a writing how many bytes it wrote. Under the file that was read and the one
 * that was written stand their values, and under the repair the place, word and mark of each sample that is not
 * measured.
 *
 *     read:    answer 0, 12 samples, 8000 a second
 *     0 11585 16384 11585 0 0 -16384 -11585 0 11585 16384 11585
 *     gap:     answer 0, value 2
 *     4:3d2dc94f:1 5:be74737b:1
 *     written: answer 0, 68 bytes
 *     0 11585 16384 11585 1390 -7822 -16384 -11585 0 11585 16384 11585
 *     stereo:  answer 20, 0 samples, 0 a second
 *     a NaN:   answer 7, value 3
 *
 * The file has a LIST chunk of 3 bytes before its fmt chunk, and so one byte more behind these: it is skipped, and not
 * written again. The room for samples and marks is longer than needed; from the opening on just those are lent that
 * were read. The two lost samples became what the model makes of the others, marked 1, CATHAR_MARK_GAP_BY_MODEL, and
 * the file that is written has their nearest values of 16 bits; all others are as they were. The same file with two
 * channels is refused by 20, CATHAR_REFUSED_CODING, and a sample that is not in range by 7, CATHAR_REFUSED_READ, with
 * its place. */
#include "cathar.h"

#include <inttypes.h>
#include <stdio.h>
#include <string.h>

#define N 12        /* samples of the file */
#define ROOM 16     /* places for samples and marks, more than there are */
#define COUNTS 1    /* numbers: cathar_counts(N), one for each block */
#define JOURNAL 38  /* words: cathar_journal_words(N, 1), for one repair, whatever it names */
#define WORK 216    /* doubles: cathar_gap_work(N, 4, 2), for a gap of 2 samples from place 4 on */
#define BYTES 68    /* bytes: cathar_wav_bytes(N), of the file that is written */

/* What stands before the samples of the file: all numbers have the lowest byte first. */
static const uint8_t head[] = {
    'R', 'I', 'F', 'F', 72, 0, 0, 0, 'W', 'A', 'V', 'E', /* 72 bytes follow the size */
    'L', 'I', 'S', 'T', 3, 0, 0, 0, 'a', 'b', 'c', 0,    /* 3 bytes, and one more */
    'f', 'm', 't', ' ', 16, 0, 0, 0, 1, 0, 1, 0,         /* PCM, 1 channel, */
    0x40, 0x1f, 0, 0, 0x80, 0x3e, 0, 0, 2, 0, 16, 0,     /* 8000 samples a second, 16000 bytes, 2 for each, 16 bits */
    'd', 'a', 't', 'a', 2 * N, 0, 0, 0,
};

/* Where its channels stand. */
enum { CHANNELS = 34 };

/* Prints the values of 16 bits that end a file. */
static void show_values(const uint8_t *file, size_t bytes)
{
    for (size_t i = 0; i < N; i++) {
        const uint8_t *two = file + bytes - 2 * N + 2 * i;
        int value = two[0] | two[1] << 8;
        printf("%s%d", i == 0 ? "" : " ", value < 32768 ? value : value - 65536);
    }
    printf("\n");
}

int main(void)
{
    /* A tone, of which two samples are lost. */
    static const int sound[N] = {0, 11585, 16384, 11585, 0, 0, -16384, -11585, 0, 11585, 16384, 11585};
    uint8_t file[sizeof head + 2 * N], out[BYTES];
    uint32_t samples[ROOM], journal[JOURNAL], rate, order;
    uint8_t marks[ROOM];
    uint16_t counts[COUNTS];
    size_t n, used, value;
    static double work[WORK];

    if (COUNTS != cathar_counts(N) || JOURNAL != cathar_journal_words(N, 1) || WORK != cathar_gap_work(N, 4, 2)
        || BYTES != cathar_wav_bytes(N))
        return 1;
    memcpy(file, head, sizeof head);
    for (size_t i = 0; i < N; i++) {
        file[sizeof head + 2 * i] = (uint8_t)(sound[i] & 0xff);
        file[sizeof head + 2 * i + 1] = (uint8_t)(sound[i] >> 8 & 0xff);
    }

    uint32_t answer = cathar_read_wav(file, sizeof file, samples, ROOM, marks, ROOM, &n, &rate);
    printf("read:    answer %" PRIu32 ", %zu samples, %" PRIu32 " a second\n", answer, n, rate);
    show_values(file, sizeof file);

    /* Open raw samples, and once: a second opening would mark made samples as measured. */
    if (cathar_open(samples, n, marks, n, counts, COUNTS, journal, JOURNAL, &used) != CATHAR_ACCEPTED)
        return 1;
    answer = cathar_inpaint_gap(samples, n, marks, n, counts, COUNTS, journal, JOURNAL, &used, 4, 2, 1, work, WORK,
                                &value, &order);
    printf("gap:     answer %" PRIu32 ", value %zu\n", answer, value);
    for (size_t i = 0, shown = 0; i < n; i++)
        if (marks[i] != CATHAR_MARK_MEASURED)
            printf("%s%zu:%08" PRIx32 ":%x", shown++ == 0 ? "" : " ", i, samples[i], (unsigned)marks[i]);
    printf("\n");

    answer = cathar_write_wav(samples, n, rate, out, sizeof out, &value);
    printf("written: answer %" PRIu32 ", %zu bytes\n", answer, value);
    show_values(out, sizeof out);

    /* Of another kind of file nothing is read. */
    file[CHANNELS] = 2;
    answer = cathar_read_wav(file, sizeof file, samples, ROOM, marks, ROOM, &n, &rate);
    printf("stereo:  answer %" PRIu32 ", %zu samples, %" PRIu32 " a second\n", answer, n, rate);

    /* The pattern of a NaN is no sample that can be written. */
    samples[3] = CATHAR_MISSING_WORD;
    answer = cathar_write_wav(samples, N, 8000, out, sizeof out, &value);
    printf("a NaN:   answer %" PRIu32 ", value %zu\n", answer, value);
    return 0;
}
