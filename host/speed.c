/* Translates the records of standard input, one a line in hexadecimal, or counts the words that they need, for host/speed.py.
 *
 *     speed ROUNDS LENT
 *     speed ROUNDS needed
 *
 * Each round translates every record once, with LENT words lent, at most 32,768, or counts its words. Prints the number of records, how
 * many of them were accepted, the number of their words, and the nanoseconds of a call on average.
 */
#define _POSIX_C_SOURCE 199309L
#include <stdio.h>
#include <stdlib.h>
#include <string.h>
#include <time.h>

#include "werfund.h"

enum { RECORDS = 1 << 12, BYTES = 1 << 22, WORDS = 1 << 15 };

/* The records, one behind the other, and where each starts. */
static uint8_t bytes[BYTES];
static size_t start[RECORDS + 1];
static uint64_t table[WERFUND_TABLE];
static uint32_t words[WORDS];

static unsigned digit(int c) {
    return (unsigned)(c <= '9' ? c - '0' : c - 'a' + 10);
}

/* How many records there are. */
static size_t read_records(void) {
    size_t records = 0, n = 0;
    int c;
    while (records < RECORDS && n < BYTES && (c = getchar()) != EOF) {
        if (c == '\n') {
            start[++records] = n;
        } else {
            bytes[n++] = (uint8_t)(digit(c) << 4 | digit(getchar()));
        }
    }
    return records;
}

/* One call; its answer's words are behind the place. */
static uint32_t call(int counts, size_t i, size_t lent, uint64_t *answer) {
    const uint8_t *record = bytes + start[i];
    size_t length = start[i + 1] - start[i];
    return counts ? werfund_words_needed(record, length, table, answer, WERFUND_NEED)
                  : werfund_translate(record, length, words, lent, table, answer, WERFUND_ANSWER);
}

int main(int argc, char **argv) {
    size_t records, accepted = 0, count = 0, lent;
    long rounds;
    int counts;
    char *end;
    struct timespec before, behind;
    double ns;
    if (argc < 3) {
        fprintf(stderr, "usage: speed ROUNDS LENT|needed\n");
        return 2;
    }
    rounds = strtol(argv[1], NULL, 10);
    counts = strcmp(argv[2], "needed") == 0;
    lent = strtoul(argv[2], &end, 10);
    records = read_records();
    if (rounds < 1 || (!counts && *end != '\0') || WORDS < lent || records == 0) {
        fprintf(stderr, "no rounds, no records, or no such number of words\n");
        return 2;
    }
    clock_gettime(CLOCK_MONOTONIC, &before);
    for (long r = 0; r < rounds; r++) {
        for (size_t i = 0; i < records; i++) {
            uint64_t answer[WERFUND_ANSWER];
            accepted += call(counts, i, lent, answer) == WERFUND_ACCEPTED;
            count += answer[1];
        }
    }
    clock_gettime(CLOCK_MONOTONIC, &behind);
    ns = (double)(behind.tv_sec - before.tv_sec) * 1e9 + (double)(behind.tv_nsec - before.tv_nsec);
    printf("%zu %zu %zu %.1f\n", records, accepted / (size_t)rounds, count / (size_t)rounds, ns / ((double)rounds * (double)records));
    return 0;
}
