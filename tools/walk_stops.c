/* Compares the lent words at every stop of the walk over a block's patches with what the oracle's words give (docs/vectors.md).
 *
 *     walk_stops < BLOCKS
 *
 * A line of BLOCKS is a record and the words of its block, in hexadecimal, a space between each. The patches are the words before the
 * pool that have a distance, by their opcodes; before the walk these distances are 0. Each block is compiled with the walk stopped behind
 * 0 patches, 1, and so on to one more than there are, and behind 2^32 - 1; and once with a word too few lent, where all must be 0.
 * Linked with `walk_stop`: a record's block by `compile_to`, and the number of words that it takes, 0 where the record is refused.
 */
#include <stdint.h>
#include <stdio.h>
#include <stdlib.h>
#include <string.h>

enum { TABLE = 6152, BYTES = 1 << 13, WORDS = 1 << 15, BEYOND = 3, LINE = 1 << 19 };

uint32_t walk_stop(const uint8_t *record, size_t record_bytes, uint32_t *words, size_t words_lent, uint64_t *table, uint32_t upto);

static char line[LINE];
static uint8_t record[BYTES];
static uint64_t table[TABLE];
static uint32_t final[WORDS], before[WORDS], lent[WORDS + BEYOND];
static size_t patch[WORDS]; /* the number of the word's patch, from 1 on; 0: it has none */

static const uint32_t closing[] = {0xa94573fb, 0xa9446bf9, 0xa94363f7, 0xa9425bf5, 0xa94153f3, 0xa8c67bfd, 0xd65f03c0};

/* Mask, opcode, and the bits of the distance. */
static const uint32_t distances[][3] = {
    {0xfc000000, 0x14000000, 0x03ffffff}, /* B */
    {0xff000010, 0x54000000, 0x00ffffe0}, /* B.cond */
    {0x7e000000, 0x34000000, 0x00ffffe0}, /* CBZ, CBNZ */
    {0x7e000000, 0x36000000, 0x0007ffe0}, /* TBZ, TBNZ */
    {0xff000000, 0x10000000, 0x00ffffe0}, /* ADR of a multiple of 4 */
    {0xff000000, 0x58000000, 0x00ffffe0}, /* LDR (literal) */
};

static unsigned digit(int c) {
    return (unsigned)(c <= '9' ? c - '0' : c - 'a' + 10);
}

/* Where the common exit begins, behind which there are no patches. */
static size_t exit_at(size_t words) {
    size_t i = 0;
    while (i + 7 <= words && memcmp(final + i, closing, sizeof closing) != 0) {
        i++;
    }
    return i;
}

/* The words before the walk, and which patch each has; how many patches there are. */
static size_t find_patches(size_t words) {
    size_t end = exit_at(words), patches = 0;
    for (size_t i = 0; i < words; i++) {
        before[i] = final[i];
        patch[i] = 0;
        for (size_t k = 0; i < end && k < sizeof distances / sizeof *distances; k++) {
            if ((final[i] & distances[k][0]) == distances[k][1]) {
                before[i] = final[i] & ~distances[k][2];
                patch[i] = ++patches;
            }
        }
    }
    return patches;
}

static uint32_t unused(size_t i) {
    return 0xa5a50000 + (uint32_t)i;
}

/* Does any lent word differ where the walk stops behind `upto` patches? */
static int differs(size_t record_bytes, size_t words, size_t words_lent, uint32_t upto) {
    int short_of = words_lent < words;
    for (size_t i = 0; i < words + BEYOND; i++) {
        lent[i] = unused(i);
    }
    if (walk_stop(record, record_bytes, lent, words_lent, table, upto) != words) {
        return 1;
    }
    for (size_t i = 0; i < words + BEYOND; i++) {
        uint32_t wanted = words_lent <= i || words <= i ? unused(i) : short_of ? 0 : upto < patch[i] ? before[i] : final[i];
        if (lent[i] != wanted) {
            return 1;
        }
    }
    return 0;
}

int main(void) {
    size_t blocks = 0, all_words = 0, all_patches = 0, stops = 0, different = 0;
    while (fgets(line, sizeof line, stdin)) {
        size_t bytes = 0, words = 0, patches;
        char *at = line;
        for (; *at != ' ' && bytes < BYTES; at += 2) {
            record[bytes++] = (uint8_t)(digit(at[0]) << 4 | digit(at[1]));
        }
        while (*at == ' ' && words < WORDS) {
            final[words++] = (uint32_t)strtoul(at, &at, 16);
        }
        patches = find_patches(words);
        for (size_t upto = 0; upto <= patches + 1; upto++, stops++) {
            different += (size_t)differs(bytes, words, words + BEYOND, (uint32_t)upto);
        }
        different += (size_t)differs(bytes, words, words + BEYOND, UINT32_MAX);
        different += (size_t)differs(bytes, words, words - 1, 1);
        stops += 2;
        blocks++;
        all_words += words;
        all_patches += patches;
    }
    printf("blocks %zu\nwords %zu\npatches %zu\nstops %zu\ndifferent %zu\n", blocks, all_words, all_patches, stops, different);
    return different != 0;
}
