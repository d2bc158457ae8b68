/* The host's side in C: every case of a file through werfund_translate_checked and werfund_words_needed_checked, compared with its frozen answers;
 * each that needs words twice more, with exactly these lent and with one fewer; and what a caller may get wrong.
 *
 *     tests CASES [COUNT]
 *
 * The form of a case is at the head of tools/block_cases.py. With COUNT only the first cases are compared. Prints what was compared, and the
 * checks by name where they fail. The exit status is 0 where nothing differs.
 */
#include <stdio.h>
#include <stdlib.h>
#include <string.h>

#include "../werfund.h"

/* What lent words hold before a call, so that one that is left as it was can be told from one that is written. */
#define BEFORE 0x5a5a5a5au

static unsigned checks, failures;

static void check(int holds, const char *what) {
    checks++;
    if (!holds) {
        failures++;
        printf("failed: %s\n", what);
    }
}

/* Room of exactly so many bytes, so that valgrind sees a byte more. */
static void *room(size_t bytes) {
    void *p = malloc(bytes);
    if (p == NULL && bytes != 0) {
        fprintf(stderr, "no memory\n");
        exit(2);
    }
    return p;
}

static uint32_t *lend(size_t count) {
    uint32_t *words = room(count * sizeof *words);
    for (size_t i = 0; i < count; i++) {
        words[i] = BEFORE;
    }
    return words;
}

static int all(const uint32_t *words, size_t from, size_t to, uint32_t value) {
    for (size_t i = from; i < to; i++) {
        if (words[i] != value) {
            return 0;
        }
    }
    return 1;
}

/* ---- cases */

enum { LENT, FAULT, PLACE, WORDS, BODY, SITES, AT0, TARGET0, AT1, TARGET1, NEED_FAULT, NEED_PLACE, NEED_WORDS, LENGTH, NUMBERS };

typedef struct frozen {
    uint32_t n[NUMBERS];
    uint8_t *record;
    uint8_t *words;
} frozen;

static uint32_t number(const uint8_t *p) {
    return (uint32_t)p[0] | (uint32_t)p[1] << 8 | (uint32_t)p[2] << 16 | (uint32_t)p[3] << 24;
}

/* The next case of a file; its bytes are the caller's to free. Null at the end. */
static uint8_t *next(FILE *file, frozen *c) {
    uint8_t head[4], *bytes;
    size_t length;
    if (fread(head, 1, sizeof head, file) != sizeof head) {
        return NULL;
    }
    length = number(head);
    bytes = room(length);
    if (length < 4 * NUMBERS || fread(bytes, 1, length, file) != length) {
        fprintf(stderr, "a case is cut\n");
        exit(2);
    }
    for (int i = 0; i < NUMBERS; i++) {
        c->n[i] = number(bytes + 4 * i);
    }
    c->record = bytes + 4 * NUMBERS;
    c->words = c->record + c->n[LENGTH];
    return bytes;
}

/* Whether an answer's sites stand by rising word position, inside the block. */
static int rising(const werfund_answer *a) {
    uint32_t from = 0;
    for (size_t i = 0; i < a->sites; i++) {
        if (a->site[i].at < from || a->site[i].at >= a->words) {
            return 0;
        }
        from = a->site[i].at + 1;
    }
    return 1;
}

/* Whether a case's answer and every lent word are the frozen ones, the sites in order. */
static int same(const frozen *c, uint64_t *table) {
    uint8_t *record = room(c->n[LENGTH]);
    uint32_t *words = lend(c->n[LENT]);
    werfund_answer a;
    uint32_t fault;
    int equal;
    memcpy(record, c->record, c->n[LENGTH]);
    fault = werfund_translate_checked(record, c->n[LENGTH], words, c->n[LENT], table, &a);
    equal = fault == c->n[FAULT] && a.place == c->n[PLACE] && a.words == c->n[WORDS] && a.body == c->n[BODY] && a.sites == c->n[SITES] &&
            a.site[0].at == c->n[AT0] && a.site[0].target == c->n[TARGET0] && a.site[1].at == c->n[AT1] &&
            a.site[1].target == c->n[TARGET1] && rising(&a);
    for (size_t i = 0; equal && i < a.words; i++) {
        equal = words[i] == number(c->words + 4 * i);
    }
    equal = equal && all(words, a.words, c->n[LENT], fault == WERFUND_ACCEPTED ? BEFORE : 0);
    free(words);
    free(record);
    return equal;
}

/* Whether the number of words needed, or the fault, is the frozen one. */
static int same_need(const frozen *c, uint64_t *table) {
    uint8_t *record = room(c->n[LENGTH]);
    werfund_need need;
    uint32_t fault;
    memcpy(record, c->record, c->n[LENGTH]);
    fault = werfund_words_needed_checked(record, c->n[LENGTH], table, &need);
    free(record);
    return fault == c->n[NEED_FAULT] && need.place == c->n[NEED_PLACE] && need.words == c->n[NEED_WORDS];
}

/* Whether a block is accepted where exactly the words that it needs are lent, and answered 10 where one fewer is: the same case, lent otherwise. */
static int exact(const frozen *c, uint64_t *table) {
    frozen fewer = *c;
    uint32_t *words = lend(c->n[NEED_WORDS]);
    uint8_t *record = room(c->n[LENGTH]);
    werfund_answer a;
    int enough;
    memcpy(record, c->record, c->n[LENGTH]);
    enough = werfund_translate_checked(record, c->n[LENGTH], words, c->n[NEED_WORDS], table, &a) == WERFUND_ACCEPTED && a.words == c->n[NEED_WORDS];
    for (size_t i = 0; enough && i < c->n[WORDS]; i++) {
        enough = words[i] == number(c->words + 4 * i);
    }
    free(record);
    free(words);
    memset(fewer.n, 0, sizeof fewer.n);
    fewer.n[LENT] = c->n[NEED_WORDS] - 1;
    fewer.n[FAULT] = WERFUND_ROOM;
    fewer.n[PLACE] = fewer.n[LENGTH] = c->n[LENGTH];
    return enough && same(&fewer, table);
}

static void cases(const char *path, unsigned long count) {
    unsigned long cases = 0, refused = 0, words = 0, different = 0, needs = 0, inexact = 0;
    uint64_t *table = room(WERFUND_TABLE * sizeof *table); /* not cleared */
    FILE *file = fopen(path, "rb");
    uint8_t *bytes;
    frozen c;
    if (file == NULL) {
        perror(path);
        exit(2);
    }
    while (cases < count && (bytes = next(file, &c)) != NULL) {
        cases++;
        refused += c.n[FAULT] != 0;
        words += c.n[WORDS];
        different += !same_need(&c, table) || !same(&c, table); /* the count first: the table is as the case before left it */
        if (c.n[FAULT] == WERFUND_ACCEPTED || c.n[FAULT] == WERFUND_ROOM) {
            needs++;
            inexact += !exact(&c, table);
        }
        free(bytes);
    }
    fclose(file);
    free(table);
    printf("cases %lu\nrefused %lu\nwords %lu\ndifferent %lu\nexact %lu\n", cases, refused, words, different, needs - inexact);
    check(different == 0, "a case differs");
    check(inexact == 0, "a block is not accepted with the words that it needs, or is with one fewer");
}

/* ---- the boundary */

/* Document 01's block of no operations: 35 words, one site. */
static const uint8_t empty_block[77] = {1,  20, 0, 0, 0, 0, 0, 64, 0, 0, 0, 68, 0, 0, 0, 72, 0, 0, 0, 76, 0, 0, 0, 2, 17, 0,
                                        0,  0,  0, 1, 0, 0, 1, 0,  0, 0, 0, 2,  0, 0, 16, 0, 0, 3, 24, 0, 0, 0, 0, 0, 0,  0,
                                        0,  0,  0, 0, 0, 0, 0, 0,  0, 0, 0, 0,  0, 0, 0,  0, 0, 0, 4,  4, 0, 0, 0, 0, 2};

/* The same at another address, behind a Nop: its words differ. */
static const uint8_t nop_block[83] = {1,  20, 0, 0, 0, 0, 0, 64, 0, 0, 0, 68, 0, 0, 0, 72, 0, 0, 0, 76, 0, 0, 0, 2, 17, 0, 0, 0,
                                      0,  1,  0, 0, 1, 0, 0, 0,  0, 2, 0, 0,  16, 0, 0, 3, 24, 0, 0, 0, 0, 0, 0, 0, 0, 0,  0, 0,
                                      0,  0,  0, 0, 0, 0, 0, 0,  0, 0, 0, 0,  0, 0, 4, 4, 0, 8, 0, 0, 2, 5, 3, 0, 0, 2,  0};

static uint64_t table[WERFUND_TABLE + 1];

static void empty(void) {
    uint32_t words[3] = {BEFORE, BEFORE, BEFORE};
    werfund_answer a;
    check(werfund_translate_checked(NULL, 0, words, 3, table, &a) == WERFUND_CUT && a.place == 0, "an empty record at null is fault 1 at 0");
    check(all(words, 0, 3, 0), "its lent words are 0");
    check(werfund_translate_checked(empty_block, 0, words, 3, table, &a) == WERFUND_CUT && a.place == 0, "an empty record is fault 1 at 0");
    check(werfund_translate_checked(empty_block, 77, NULL, 0, table, &a) == WERFUND_ROOM && a.place == 77, "no words at null are fault 10 at 77");
    check(werfund_translate_checked(empty_block, 77, words, 0, table, &a) == WERFUND_ROOM && a.place == 77, "no words are fault 10 at 77");
    check(werfund_translate_checked(NULL, 0, NULL, 0, table, &a) == WERFUND_CUT && a.place == 0, "nothing at all is fault 1 at 0");
    check(a.words == 0 && a.body == 0 && a.sites == 0 && a.site[0].at == 0 && a.site[1].target == 0, "a refusal has no counts and no sites");
}

/* Whether a count answers so. */
static int counts(const uint8_t *record, size_t bytes, uint32_t fault, size_t place, uint32_t words) {
    werfund_need need;
    return werfund_words_needed_checked(record, bytes, table, &need) == fault && need.place == place && need.words == words;
}

static void needs(void) {
    check(counts(empty_block, 77, WERFUND_ACCEPTED, 0, 35), "35 words are needed");
    check(counts(nop_block, 83, WERFUND_ACCEPTED, 0, 37), "a Nop's block at 02000800 needs 37");
    check(counts(empty_block, 76, WERFUND_CUT, 70, 0), "a cut record is fault 1 at 70, counted");
    check(counts(empty_block, 0, WERFUND_CUT, 0, 0), "an empty record is fault 1 at 0, counted");
    check(counts(NULL, 0, WERFUND_CUT, 0, 0), "an empty record at null is fault 1 at 0, counted");
}

/* Two sites: a BrI's, the address behind it first, wherever it jumps to (2026-05). */
static void two_sites(void) {
    static const uint32_t target[3] = {0x02000000, 0x02000002, 0x02000010};
    for (size_t i = 0; i < 3; i++) {
        static const uint8_t head[6] = {5, 19, 0, 30, 2, 0};
        uint8_t record[77 + 22] = {0};
        uint32_t words[64];
        uint64_t cells[WERFUND_ANSWER];
        werfund_answer a;
        memcpy(record, empty_block, 77);
        memcpy(record + 77, head, sizeof head);
        for (size_t k = 0; k < 4; k++) {
            record[sizeof record - 4 + k] = (uint8_t)(target[i] >> 8 * k);
        }
        check(werfund_translate_checked(record, sizeof record, words, 64, table, &a) == 0 && a.sites == 2, "a fork has two sites");
        check(a.site[0].target == 0x02000002 && a.site[1].target == target[i], "the address behind is listed first");
        check(rising(&a) && words[a.site[0].at] == 0x14000001 && words[a.site[1].at] == 0x14000001,
              "by rising word position, each at its branch");
        check(werfund_translate(record, sizeof record, words, 64, table, cells, WERFUND_ANSWER) == 0 && cells[4] < cells[6],
              "in the cells too");
    }
}

/* Groups: 32 BlockMoves of 16 loads each, for which 16,384 words are too few; a pair, also where RAM is shorter than it; and a kind that
 * there is not. */
static void groups(void) {
    static const uint8_t move[26] = {5, 23, 0, 40, 2, 0, 7, 0, 0, 0, 0xff, 0xff, 0, 0, 0, 0, 0, 0, 1, 0, 0, 0, 0, 0, 0, 0};
    static const uint8_t pair[18] = {5, 15, 0, 43, 2, 0};
    uint8_t record[77 + 32 * sizeof move];
    uint32_t *words = lend(21064);
    werfund_answer a;
    memcpy(record, empty_block, 77);
    for (size_t i = 0; i < 32; i++) {
        memcpy(record + 77 + i * sizeof move, move, sizeof move);
    }
    check(counts(record, sizeof record, WERFUND_ACCEPTED, 0, 21064), "32 groups need 21,064 words");
    check(werfund_translate_checked(record, sizeof record, words, 16384, table, &a) == WERFUND_ROOM && a.place == sizeof record,
          "16,384 are fault 10 at the record's length");
    check(all(words, 0, 16384, 0) && all(words, 16384, 21064, BEFORE), "and are 0, the words beyond untouched");
    check(werfund_translate_checked(record, sizeof record, words, 21064, table, &a) == WERFUND_ACCEPTED && a.words == 21064,
          "21,064 are enough");
    free(words);
    memcpy(record + 77, pair, sizeof pair);
    check(counts(record, 77 + sizeof pair, WERFUND_ACCEPTED, 0, 102), "a pair needs 102");
    record[30] = 4;
    record[32] = 0;
    check(counts(record, 77 + sizeof pair, WERFUND_OPERAND, 77, 0), "with a RAM of 4 bytes it is fault 4 at 77");
    record[80] = 50;
    check(counts(record, 77 + sizeof pair, WERFUND_KIND, 77, 0), "and kind 50 is fault 3 at 77");
}

/* Addressing forms: each kind, with i a register and not, at the edge of its operands (2026-09). */
static void forms(void) {
    static const struct {
        uint8_t kind, operands;
        uint32_t operand[6], fault, words, sites;
    } form[] = {
        {45, 6, {1, 2, 15, 4, 0, 0}, 0, 80, 1},      /* LdPre by a register, */
        {45, 6, {1, 2, 16, 4, 0, 4096}, 0, 78, 1},   /* by the increment */
        {45, 6, {1, 2, 256, 4, 0, 4}, 4, 0, 0},      /* and by neither */
        {46, 5, {1, 2, 15, 4, 0}, 0, 74, 1},         /* StPre */
        {46, 5, {1, 2, 255, 2, 4}, 0, 72, 1},
        {47, 5, {1, 2, 15, 2, 1}, 0, 86, 1},         /* LdPostR, */
        {47, 5, {1, 2, 16, 2, 1}, 4, 0, 0},          /* whose i is a register */
        {48, 5, {2, 8, 1, 0, 3}, 0, 96, 1},          /* MemA4 */
        {48, 5, {2, 8, 11, 0, 3}, 4, 0, 0},
        {49, 2, {3, 0}, 0, 76, 0},                   /* Tb jumps */
        {49, 2, {3, 1}, 0, 80, 0},
        {49, 2, {3, 2}, 4, 0, 0},
        {50, 2, {3, 1}, 3, 0, 0},                    /* there is no such kind */
    };
    for (size_t i = 0; i < sizeof form / sizeof *form; i++) {
        uint8_t record[77 + 6 + 24] = {0}, size = (uint8_t)(3 + 4 * form[i].operands);
        size_t bytes = 80u + size;
        uint32_t *words = lend(97), fault = form[i].fault, place = fault == 0 ? 0 : 77;
        werfund_answer a;
        memcpy(record, empty_block, 77);
        record[77] = 5;
        record[78] = size;
        record[80] = form[i].kind;
        record[81] = 2;
        for (size_t k = 0; k < 4u * form[i].operands; k++) {
            record[83 + k] = (uint8_t)(form[i].operand[k / 4] >> 8 * (k % 4));
        }
        check(werfund_translate_checked(record, bytes, words, 97, table, &a) == fault && a.place == place, "a form");
        check(fault == 0 ? a.words == form[i].words && a.sites == form[i].sites && all(words, a.words, 97, BEFORE) : all(words, 0, 97, 0),
              "its words and sites, no word beyond; or its words are 0");
        check(counts(record, bytes, fault, place, form[i].words), "a form, counted");
        free(words);
    }
}

/* Layouts of the processor record: the whole of one is tested for 5, then for 14, then for 15 (2026-03). */
static void layouts(void) {
    static const struct {
        uint32_t offset[5]; /* regs, sp, rets, pc, hold */
        uint32_t fault;
    } layout[] = {
        {{0, 62, 68, 72, 76}, 14},           /* document 01's example */
        {{0, 60, 68, 72, 76}, 15},           /* sp among the registers */
        {{0, 64, 64, 72, 76}, 15},           /* sp at rets */
        {{16324, 64, 68, 72, 76}, 5},        /* regs plus 60 is 16384, */
        {{16321, 64, 68, 72, 76}, 14},       /* and here below it */
        {{0, 64, 68, 72, 16384}, 5},
        {{0xffffffff, 64, 66, 72, 76}, 5},   /* 5 before 14: regs plus 60 does not wrap */
        {{0, 64, 64, 72, 16386}, 5},         /* 5 before 14 and 15 */
        {{1, 68, 72, 76, 80}, 14},
        {{2, 0, 4, 8, 12}, 14},              /* 14 before 15 */
        {{16, 12, 8, 4, 0}, 0},              /* in any order, */
        {{16320, 0, 4, 8, 12}, 0},           /* up to the last that fits */
        {{0, 64, 68, 72, 16380}, 0},
    };
    for (size_t i = 0; i < sizeof layout / sizeof *layout; i++) {
        uint32_t *words = lend(36), fault = layout[i].fault;
        uint8_t record[77];
        werfund_answer a;
        memcpy(record, empty_block, 77);
        for (int k = 0; k < 20; k++) {
            record[3 + k] = (uint8_t)(layout[i].offset[k / 4] >> 8 * (k % 4));
        }
        check(werfund_translate_checked(record, 77, words, 36, table, &a) == fault && a.place == 0, "a layout, at place 0");
        check(fault == WERFUND_ACCEPTED ? a.words == 35 && words[35] == BEFORE : all(words, 0, 36, 0), "its words are the block's, or 0");
        check(counts(record, 77, fault, 0, fault == WERFUND_ACCEPTED ? 35 : 0), "a layout, counted");
        free(words);
        record[30] = 3;
        record[32] = 0;
        check(fault == WERFUND_ACCEPTED ? counts(record, 77, WERFUND_REGION, 23, 0) : counts(record, 77, fault, 0, 0),
              "a RAM of 3 bytes is told behind it");
    }
    check(WERFUND_OFFSET == 5 && WERFUND_OFFSET_UNALIGNED == 14 && WERFUND_OFFSET_OVERLAP == 15, "a layout's faults by their names");
}

/* Blocks in RAM: a guard behind the start, where it is due and nowhere else, and operations up to RAM's end (2026-06). RAM is 01000000 to
 * 0100ffff. */
static void guards(void) {
    static const uint8_t guard[19] = {6,    16,   0,    0x88, 0x77, 0x66, 0x55, 0x44, 0x33, 0x22,
                                      0x11, 0x00, 0xff, 0xee, 0xdd, 0xcc, 0xbb, 0xaa, 0x99};
    static const struct {
        uint32_t start, guarded, nops, fault, place, words;
    } block[] = {
        {0x01000000, 1, 0, 0, 0, 52},
        {0x01000010, 1, 1, 0, 0, 56},       /* an address that takes two words */
        {0x0100fffe, 1, 1, 0, 0, 54},       /* up to RAM's end, */
        {0x0100ffff, 1, 1, 17, 96, 0},      /* and past it, */
        {0x0100fffc, 1, 3, 17, 108, 0},     /* by the third operation */
        {0x0100ffff, 1, 0, 0, 0, 56},       /* without one */
        {0x01000000, 0, 0, 16, 70, 0},      /* no guard in RAM, at the record's end */
        {0x01000000, 0, 1, 16, 70, 0},      /* and before an operation */
        {0x02000000, 1, 0, 16, 70, 0},      /* a guard in flash's range */
        {0x00ffffff, 1, 0, 7, 70, 0},       /* neither, */
        {0x01010000, 0, 0, 7, 70, 0},       /* at either end of RAM, */
        {0x01ffffff, 1, 0, 7, 70, 0},       /* and of flash's range */
        {0x04000000, 1, 1, 7, 70, 0},
    };
    werfund_answer a;
    uint8_t record[77 + sizeof guard + 3 * 6];
    for (size_t i = 0; i < sizeof block / sizeof *block; i++) {
        static const uint8_t nop[6] = {5, 3, 0, 0, 2, 0};
        uint32_t *words = lend(57);
        size_t bytes = 77;
        uint32_t fault = block[i].fault;
        memcpy(record, empty_block, 77);
        for (int k = 0; k < 4; k++) {
            record[73 + k] = (uint8_t)(block[i].start >> 8 * k);
        }
        if (block[i].guarded) {
            memcpy(record + bytes, guard, sizeof guard);
            bytes += sizeof guard;
        }
        for (uint32_t k = 0; k < block[i].nops; k++, bytes += sizeof nop) {
            memcpy(record + bytes, nop, sizeof nop);
        }
        check(counts(record, bytes, fault, block[i].place, block[i].words), "a block in RAM, counted");
        check(werfund_translate_checked(record, bytes, words, 57, table, &a) == fault, "and translated");
        check(a.place == block[i].place && a.words == block[i].words, "at its place, or with its words");
        if (fault != 0) {
            check(all(words, 0, 57, 0), "its words are 0");
        } else {
            check(a.body == 52 && a.sites == 1 && a.site[0].target == block[i].start + 2 * block[i].nops,
                  "its site leads to the address behind it");
            check(all(words, a.words, 57, BEFORE), "the words beyond it are untouched");
            check(words[20] == 0xf9401689 || words[21] == 0xf9401689, "the version is loaded behind the limit's test");
            check(words[a.words - 2] == 0xddeeff00 && words[a.words - 1] == 0x99aabbcc, "the last literal is the helper's address");
            fault = werfund_translate_checked(record, bytes, words, block[i].words - 1, table, &a);
            check(fault == WERFUND_ROOM && a.place == bytes, "one word fewer is fault 10 at the record's length");
            check(all(words, 0, block[i].words - 1, 0), "and its words are 0");
        }
        free(words);
    }
    memcpy(record, empty_block, 77);
    record[76] = 1;
    memcpy(record + 77, guard, sizeof guard);
    check(counts(record, 95, WERFUND_CUT, 77, 0) && counts(record, 78, WERFUND_CUT, 77, 0), "a guard that is cut is fault 1 at 77");
    record[78] = 15;
    check(counts(record, 95, WERFUND_FIELD, 77, 0), "a guard of 15 bytes is fault 2 at 77");
    record[76] = 2;
    check(counts(record, 78, WERFUND_GUARD, 70, 0), "behind a start in flash's range a lone tag 06 is fault 16 at 70");
    check(WERFUND_START == 7 && WERFUND_GUARD == 16 && WERFUND_PAST_RAM == 17, "the faults of a start by their names");
}

/* Each row of the table has a text of its own, and so has WERFUND_MISUSE; no other number has one of these. */
static void texts(void) {
#define ROW(number, name, text) {number, text},
    static const struct {
        uint32_t number;
        const char *text;
    } row[] = {WERFUND_FAULTS(ROW){WERFUND_MISUSE, "a pointer or a length that no call may have"}};
#undef ROW
    const size_t rows = sizeof row / sizeof *row;
    size_t known = 0;
    for (size_t i = 0; i < rows; i++) {
        check(strcmp(werfund_fault_text(row[i].number), row[i].text) == 0, "a number has the text of its row");
        check(strcmp(row[i].text, "unknown fault") != 0, "which says what it is");
        for (size_t k = 0; k < i; k++) {
            check(strcmp(row[i].text, row[k].text) != 0, "and is no other's");
        }
    }
    for (uint32_t number = 0; number <= 64; number++) {
        known += strcmp(werfund_fault_text(number), "unknown fault") != 0;
    }
    check(known == rows - 1, "a number without a row is unknown");
    check(strcmp(werfund_fault_text(WERFUND_MISUSE - 1), "unknown fault") == 0, "however large it is");
}

static void lengths(void) {
    for (size_t lent = 34; lent <= 36; lent++) {
        uint32_t words[40];
        werfund_answer a;
        uint32_t fault;
        for (int i = 0; i < 40; i++) {
            words[i] = BEFORE;
        }
        fault = werfund_translate_checked(empty_block, 77, words, lent, table, &a);
        check(fault == (lent < 35 ? WERFUND_ROOM : WERFUND_ACCEPTED), "35 words are enough, and 34 are not");
        check(lent < 35 ? all(words, 0, 34, 0) : words[0] == 0xa9ba7bfd && words[34] == 0xd65f03c0, "the lent words are the block's, or 0");
        check(all(words, lent < 35 ? 34 : 35, 40, BEFORE), "the words beyond are untouched");
    }
}

/* Marks memory before a call, and sees whether the marks are there still. */
static void mark(void *p, size_t bytes) {
    if (p != NULL) {
        memset(p, 0x77, bytes);
    }
}

static int marked(const void *p, size_t bytes) {
    const uint8_t *at = p;
    for (size_t i = 0; p != NULL && i < bytes; i++) {
        if (at[i] != 0x77) {
            return 0;
        }
    }
    return 1;
}

/* Whether a call answers WERFUND_MISUSE, and leaves its answer as it was. */
static int misused(const uint8_t *record, size_t bytes, uint32_t *words, size_t lent, uint64_t *tab, werfund_answer *a) {
    mark(a, sizeof *a);
    return werfund_translate_checked(record, bytes, words, lent, tab, a) == WERFUND_MISUSE && marked(a, sizeof *a);
}

static void misuse(void) {
    uint32_t *words = lend(64);
    uint8_t *bytes = (uint8_t *)table;
    werfund_answer a;
    check(misused(NULL, 1, words, 64, table, &a), "a null record with a length");
    check(misused(empty_block, 77, NULL, 1, table, &a), "null words with a length");
    check(misused(empty_block, 77, words, 64, NULL, &a), "a null table");
    check(misused(empty_block, 77, words, 64, table, NULL), "a null answer");
    check(misused(empty_block, 77, (uint32_t *)(void *)((uint8_t *)words + 2), 63, table, &a), "words that are not aligned");
    check(misused(empty_block, 77, words, 64, (uint64_t *)(void *)(bytes + 4), &a), "a table that is not aligned");
    check(misused(empty_block, (size_t)-1, words, 64, table, &a), "a record longer than memory");
    check(misused(empty_block, 77, words, (size_t)-1 / 4, table, &a), "more words than memory");
    check(misused((uint8_t *)words, 77, words + 19, 45, table, &a), "a record that ends in the words");
    check(misused((uint8_t *)(words + 63), 4, words, 64, table, &a), "words that end in the record");
    check(misused(bytes + 8 * WERFUND_TABLE - 1, 2, words, 64, table, &a), "a table that ends in the record");
    check(misused(empty_block, 77, (uint32_t *)(void *)(bytes + 8 * WERFUND_TABLE - 4), 2, table, &a), "a table that ends in the words");
    check(all(words, 0, 64, BEFORE), "and the words are untouched");
    memcpy(words, empty_block, 77);
    check(werfund_translate_checked((uint8_t *)words, 77, words + 20, 44, table, &a) == WERFUND_ACCEPTED, "a record beside its words is fine");
    free(words);
}

/* The same of a count. */
static int miscounted(const uint8_t *record, size_t bytes, uint64_t *tab, werfund_need *need) {
    mark(need, sizeof *need);
    return werfund_words_needed_checked(record, bytes, tab, need) == WERFUND_MISUSE && marked(need, sizeof *need);
}

static void need_misuse(void) {
    uint8_t *bytes = (uint8_t *)table;
    werfund_need need, two[2];
    check(miscounted(NULL, 1, table, &need), "a null record with a length, counted");
    check(miscounted(empty_block, 77, NULL, &need), "a null table, counted");
    check(miscounted(empty_block, 77, table, NULL), "a null answer, counted");
    check(miscounted(empty_block, 77, (uint64_t *)(void *)(bytes + 4), &need), "a table that is not aligned, counted");
    check(miscounted(empty_block, 77, table, (werfund_need *)(void *)((uint8_t *)two + 4)), "an answer that is not aligned, counted");
    check(miscounted(empty_block, (size_t)-1, table, &need), "a record longer than memory, counted");
    check(miscounted(bytes + 8 * WERFUND_TABLE - 1, 2, table, &need), "a table that ends in the record, counted");
    check(miscounted((uint8_t *)&need, 1, table, &need), "a record in the answer, counted");
    check(miscounted(empty_block, 77, table, (werfund_need *)(void *)(table + WERFUND_TABLE - 1)), "an answer in the table, counted");
}

/* The library's own function: an answer of fewer cells, and of more. */
static void few_cells(void) {
    static const uint64_t accepted[8] = {0, 35, 52, 1, 21, 0x02000000, 0, 0};
    static const uint64_t refused[8] = {77, 0, 0, 0, 0, 0, 0, 0};
    uint32_t words[35];
    for (size_t n = 0; n <= 10; n++) {
        for (size_t lent = 34; lent <= 35; lent++) {
            uint64_t cells[10];
            uint32_t fault;
            int equal = 1;
            memset(cells, 0x77, sizeof cells);
            fault = werfund_translate(empty_block, 77, words, lent, table, cells, n);
            for (size_t i = 0; i < 10; i++) {
                equal = equal && cells[i] == (i < n && i < 8 ? (lent < 35 ? refused : accepted)[i] : 0x7777777777777777u);
            }
            check(fault == (lent < 35 ? 10u : 0u) && equal, "an answer gets as many cells as it has, and no more");
        }
    }
}

static void few_need_cells(void) {
    static const uint64_t counted[2] = {0, 35};
    static const uint64_t refused[2] = {70, 0};
    for (size_t n = 0; n <= 4; n++) {
        for (size_t bytes = 76; bytes <= 77; bytes++) {
            uint64_t cells[4];
            uint32_t fault;
            int equal = 1;
            memset(cells, 0x77, sizeof cells);
            fault = werfund_words_needed(empty_block, bytes, table, cells, n);
            for (size_t i = 0; i < 4; i++) {
                equal = equal && cells[i] == (i < n && i < 2 ? (bytes < 77 ? refused : counted)[i] : 0x7777777777777777u);
            }
            check(fault == (bytes < 77 ? 1u : 0u) && equal, "a count's answer gets as many cells as it has, and no more");
        }
    }
}

/* Two tables, and one that serves two blocks by turns: no call is disturbed by another. */
static void interleaved(void) {
    uint64_t *other = room(WERFUND_TABLE * sizeof *other);
    uint32_t first[2][64], second[2][64];
    werfund_answer a, b;
    memset(table, 0xff, sizeof table);
    for (int i = 0; i < 2; i++) {
        memset(first[i], 0, sizeof first[i]);
        memset(second[i], 0, sizeof second[i]);
    }
    for (int turn = 0; turn < 4; turn++) {
        int i = turn & 1;
        check(werfund_translate_checked(empty_block, 77, first[i], 64, i == 0 ? table : other, &a) == 0, "the first is accepted");
        check(werfund_translate_checked(nop_block, 83, second[i], 64, turn < 2 ? other : table, &b) == 0, "the second is accepted");
        check(memcmp(first[0], first[i], sizeof first[0]) == 0 && a.words == 35, "and has its words again");
        check(memcmp(second[0], second[i], sizeof second[0]) == 0 && b.site[0].target == 0x0200000a, "as the second has");
    }
    check(memcmp(first[0], second[0], sizeof first[0]) != 0, "which are others");
    free(other);
}

static void links(void) {
    static const struct {
        int64_t site, body;
        uint32_t fault, word;
    } link[] = {
        {0, 4, 0, 0x14000001},                                  /* document 01, starred: 4 bytes ahead */
        {4, 0, 0, 0x17ffffff},                                  /* and 4 bytes behind */
        {0, 134217724, 0, 0x15ffffff},                          /* the last that reaches ahead, */
        {134217728, 0, 0, 0x16000000},                          /* and behind */
        {0, 134217728, 11, 0},                                  /* document 01's example of 11 */
        {134217732, 0, 11, 0},                                  /* one more behind */
        {INT64_MIN, INT64_MAX - 3, 11, 0},                      /* the difference does not wrap */
        {2, 4, 12, 0},                                          /* document 01's example of 12 */
        {4, 2, 12, 0},                                          /* either address */
        {1, 134217728, 12, 0},                                  /* 12 before 11 */
        {-8, -4, 0, 0x14000001},
    };
    uint32_t word;
    for (size_t i = 0; i < sizeof link / sizeof *link; i++) {
        word = BEFORE;
        check(werfund_link_checked(link[i].site, link[i].body, &word) == link[i].fault && word == link[i].word, "a link");
        check(werfund_link(link[i].site, link[i].body) == ((uint64_t)link[i].fault << 32 | link[i].word), "and the library's own function");
    }
    check(werfund_link_checked(0, 4, NULL) == WERFUND_MISUSE, "a link without a word");
}

int main(int argc, char **argv) {
    if (argc < 2) {
        fprintf(stderr, "usage: tests CASES [COUNT]\n");
        return 2;
    }
    cases(argv[1], argc < 3 ? (unsigned long)-1 : strtoul(argv[2], NULL, 10));
    empty();
    needs();
    two_sites();
    groups();
    forms();
    layouts();
    guards();
    texts();
    lengths();
    misuse();
    need_misuse();
    few_cells();
    few_need_cells();
    interleaved();
    links();
    printf("checks %u\nfailed %u\n", checks, failures);
    return failures != 0;
}
