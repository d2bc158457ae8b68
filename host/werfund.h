/* The translator of block records to A64 code, for a host in C (C99) or C++ on x86-64 or AArch64 Linux.
 *
 * host/build.sh writes target/staticlib/libwerfund.a, and host/arm/build.sh target/staticlib-aarch64/libwerfund.a; link the one of your
 * processor, and nothing else beside the C library. What each function answers is proved in crates/werfund, for every record and every length.
 * What a contract cannot say of C is in this file: pointers.
 *
 * There is no heap, no file, no lock and no state: nothing is kept between calls. Calls may run at the same time, each with its own words,
 * table and answer. How much stack a call needs is in docs/SPEED.md.
 *
 * The functions with `_checked` test their pointers and lengths; use these. The others are the library's own, and take what they are given.
 */
#ifndef WERFUND_H
#define WERFUND_H

#include <stddef.h>
#include <stdint.h>

#ifdef __cplusplus
extern "C" {
#endif

/* Cells of the table, of 64 bits each: 49,216 bytes. It is working room that the caller lends. What it holds does not matter, so that it needs
 * no clearing, and the same one may serve the next call. */
#define WERFUND_TABLE 6152

/* Numbers of an answer of werfund_translate. */
#define WERFUND_ANSWER 8

/* Numbers of an answer of werfund_words_needed. */
#define WERFUND_NEED 2

/* What a call answers, by rows of number, name and text: 0; the faults of reading a record, in the order of document 01's table, those that
 * document 02 adds where it says; 10, translate's alone and the last; and link's two. Enumeration and texts are made from these rows. */
#define WERFUND_FAULTS(X)                                                                                            \
    X(0, WERFUND_ACCEPTED, "accepted")                                                                               \
    X(1, WERFUND_CUT, "a field's header or payload is cut, or the record ends before the field with tag 04")         \
    X(2, WERFUND_FIELD, "a tag that is not due, or a length that is not the field's")                                \
    X(8, WERFUND_OPERATIONS, "a 33rd operation")                                                                     \
    X(9, WERFUND_BEHIND_JUMP, "an operation behind a jump")                                                          \
    X(3, WERFUND_KIND, "an operation's kind above 49")                                                               \
    X(4, WERFUND_OPERAND, "a flag or an operand out of range, or a group that moves more bytes than RAM or XIP has") \
    X(5, WERFUND_OFFSET, "an offset, or regs plus 60, of 16384 or more")                                             \
    X(14, WERFUND_OFFSET_UNALIGNED, "an offset that is no multiple of 4")                                            \
    X(15, WERFUND_OFFSET_OVERLAP, "two places of the processor record that overlap")                                 \
    X(6, WERFUND_REGION, "a region shorter than 4, with a base that is no multiple of 4, or that ends above 2^32")   \
    X(7, WERFUND_START, "a block's address neither in flash's range, 02000000 to 03ffffff, nor inside RAM")          \
    X(16, WERFUND_GUARD, "tag 06 next behind a start in flash's range, or not next behind one in RAM")               \
    X(17, WERFUND_PAST_RAM, "an operation of a block in RAM that reaches past RAM's end")                            \
    X(10, WERFUND_ROOM, "more words are needed than lent; the record has no other fault")                            \
    X(11, WERFUND_REACH, "a link's body out of reach")                                                               \
    X(12, WERFUND_UNALIGNED, "a link's address that is no multiple of 4")

#define WERFUND_FAULT_NUMBER(number, name, text) name = number,
enum werfund_fault { WERFUND_FAULTS(WERFUND_FAULT_NUMBER) };
#undef WERFUND_FAULT_NUMBER

/* No fault: a pointer or a length that no call may have. Only the functions with `_checked` answer it, and then nothing was written. */
#define WERFUND_MISUSE 0xffffffffu

/* The text of an answer, one line without a stop; "unknown fault" of a number that has no row and is not WERFUND_MISUSE. Never null. */
#define WERFUND_FAULT_TEXT(number, name, text) \
    case number:                               \
        return text;
static inline const char *werfund_fault_text(uint32_t number) {
    switch (number) {
        WERFUND_FAULTS(WERFUND_FAULT_TEXT)
        case WERFUND_MISUSE:
            return "a pointer or a length that no call may have";
        default:
            return "unknown fault";
    }
}
#undef WERFUND_FAULT_TEXT

/* ---- the library's functions
 *
 * No pointer is null, also where the length is 0. `words` is a multiple of 4, `table` and `answer` are multiples of 8. Record, words, table and
 * answer lie apart: no two of them overlap. Lengths count bytes, words and cells, and are true. The functions test none of this.
 *
 * werfund_translate answers 0, or the number of the first fault of reading, or 10. Accepted: the block's words stand in `words` from the
 * first on, and those behind them are untouched. Refused: all lent words are 0. `answer` gets as many of these eight as it has room for,
 * and its other cells are untouched:
 *
 *     0  the fault's place, an offset in the record    4  the first site's word    6  the second site's word
 *     1  the number of words                           5  its guest target         7  its guest target
 *     2  the body's offset, in bytes
 *     3  the number of chain sites, 0 to 2
 *
 * Sites are listed by rising word position, each once: of two, cell 4 is below cell 6, both are below cell 1, and the first leads to the
 * address behind the block. What there is not is 0: place in an accepted block, the others in a refused record.
 *
 * A block that starts inside RAM and outside 02000000 to 03ffffff has a guard: its record has the field with tag 06, of 16 bytes, next
 * behind the field with tag 04: the address of the guard's record and that of `h_ram_ok`. The block compares the version at byte 40 of the
 * context with that at byte 0 of the guard, 64 bits each. Where they differ it calls `h_ram_ok` with the context in x0 and the guard's
 * address in x1, and an answer of 0 in w0 makes it leave with nothing done: pc the block's address, the done count as it was. Copying the
 * block's bytes and comparing them is the host's. The field stands in no other record.
 *
 * 28,166 words are enough for every block. The longest that is known takes 22,684, in flash 22,666, and of kinds 0 to 39 alone 3,268 and
 * 3,250; werfund_words_needed says how many a block takes.
 */
uint32_t werfund_translate(const uint8_t *record, size_t record_bytes, uint32_t *words, size_t words_lent, uint64_t *table, uint64_t *answer,
                           size_t answer_cells);

/* How many words the record's block takes, before any are lent: with that many words or more werfund_translate accepts the record, and with
 * fewer it answers 10. Answers 0, or the number of the first fault of reading, never 10, with which werfund_translate refuses the record
 * whatever is lent. `answer` gets as many of these two as it has room for, and its other cells are untouched:
 *
 *     0  the fault's place, an offset in the record; 0 where the words are counted
 *     1  the number of words; 0 where the record is refused
 */
uint32_t werfund_words_needed(const uint8_t *record, size_t record_bytes, uint64_t *table, uint64_t *answer, size_t answer_cells);

/* The word of the branch from a chain site to a body in the lower 32 bits, and 0 above it; or the fault's number, 11 or 12, in the upper 32 bits,
 * and 0 below it. Both addresses are signed numbers of 64 bits. */
uint64_t werfund_link(int64_t site, int64_t body);

/* ---- the same, tested */

/* A chain site: the position of its branch among the block's words, and the guest address that it leads to. */
typedef struct werfund_site {
    uint32_t at;
    uint32_t target;
} werfund_site;

/* A block's counts and sites, or a fault's place; the rest is 0. Chained blocks enter `body` bytes behind the first word. The first `sites`
 * of `site` are the block's, each once, by rising `at`, which is below `words`; of two the first leads to the address behind the block. */
typedef struct werfund_answer {
    size_t place;
    uint32_t words;
    uint32_t body;
    uint32_t sites;
    werfund_site site[2];
} werfund_answer;

/* The number of words that a block takes, or a fault's place; the other is 0. */
typedef struct werfund_need {
    size_t place;
    uint32_t words;
} werfund_need;

/* Whether two pieces of memory have no byte in common. */
static inline int werfund_apart(const void *a, size_t a_bytes, const void *b, size_t b_bytes) {
    uintptr_t x = (uintptr_t)a, y = (uintptr_t)b;
    return a_bytes == 0 || b_bytes == 0 || (x < y ? a_bytes <= y - x : b_bytes <= x - y);
}

/* Whether `count` elements of `size` bytes can stand at `p`: aligned, not null, and no more than an object has. Nothing stands anywhere. */
static inline int werfund_stands(const void *p, size_t count, size_t size) {
    return count == 0 || (p != NULL && (uintptr_t)p % size == 0 && count <= (size_t)PTRDIFF_MAX / size);
}

/* Translates a record. Answers as werfund_translate, or WERFUND_MISUSE: a table or an answer that is null, a null pointer with a length, a
 * pointer that is not aligned, or two of record, words, table and answer that overlap. A null pointer with the length 0 is an empty record,
 * or no lent words. */
static inline uint32_t werfund_translate_checked(const uint8_t *record, size_t record_bytes, uint32_t *words, size_t words_lent, uint64_t *table,
                                                 werfund_answer *answer) {
    uint8_t no_record = 0;
    uint32_t no_words = 0;
    uint64_t cells[WERFUND_ANSWER];
    size_t lent, table_bytes = WERFUND_TABLE * sizeof *table;
    uint32_t fault;
    if (!werfund_stands(record, record_bytes, 1) || !werfund_stands(words, words_lent, sizeof *words) ||
        !werfund_stands(table, WERFUND_TABLE, sizeof *table) || !werfund_stands(answer, 1, sizeof answer->place)) {
        return WERFUND_MISUSE;
    }
    lent = words_lent * sizeof *words;
    if (!werfund_apart(record, record_bytes, words, lent) || !werfund_apart(record, record_bytes, table, table_bytes) ||
        !werfund_apart(words, lent, table, table_bytes) || !werfund_apart(answer, sizeof *answer, record, record_bytes) ||
        !werfund_apart(answer, sizeof *answer, words, lent) || !werfund_apart(answer, sizeof *answer, table, table_bytes)) {
        return WERFUND_MISUSE;
    }
    fault = werfund_translate(record_bytes == 0 ? &no_record : record, record_bytes, words_lent == 0 ? &no_words : words, words_lent, table, cells,
                              WERFUND_ANSWER);
    answer->place = (size_t)cells[0];
    answer->words = (uint32_t)cells[1];
    answer->body = (uint32_t)cells[2];
    answer->sites = (uint32_t)cells[3];
    answer->site[0].at = (uint32_t)cells[4];
    answer->site[0].target = (uint32_t)cells[5];
    answer->site[1].at = (uint32_t)cells[6];
    answer->site[1].target = (uint32_t)cells[7];
    return fault;
}

/* How many words a record's block takes, so that the code space can be reserved before it is translated: lent that many words or more,
 * werfund_translate_checked accepts it. Answers as werfund_words_needed, or WERFUND_MISUSE: a table or an answer that is null, a null
 * record with a length, a pointer that is not aligned, or two of record, table and answer that overlap. */
static inline uint32_t werfund_words_needed_checked(const uint8_t *record, size_t record_bytes, uint64_t *table, werfund_need *need) {
    uint8_t no_record = 0;
    uint64_t cells[WERFUND_NEED];
    size_t table_bytes = WERFUND_TABLE * sizeof *table;
    uint32_t fault;
    if (!werfund_stands(record, record_bytes, 1) || !werfund_stands(table, WERFUND_TABLE, sizeof *table) ||
        !werfund_stands(need, 1, sizeof need->place)) {
        return WERFUND_MISUSE;
    }
    if (!werfund_apart(record, record_bytes, table, table_bytes) || !werfund_apart(need, sizeof *need, record, record_bytes) ||
        !werfund_apart(need, sizeof *need, table, table_bytes)) {
        return WERFUND_MISUSE;
    }
    fault = werfund_words_needed(record_bytes == 0 ? &no_record : record, record_bytes, table, cells, WERFUND_NEED);
    need->place = (size_t)cells[0];
    need->words = (uint32_t)cells[1];
    return fault;
}

/* The branch that the host writes at a chain site to link it with a body. Answers 0 and the word; or 11 or 12, and the word 0; or WERFUND_MISUSE
 * where `word` is null. The write and the instruction cache are the host's. */
static inline uint32_t werfund_link_checked(int64_t site, int64_t body, uint32_t *word) {
    uint64_t linked;
    if (word == NULL) {
        return WERFUND_MISUSE;
    }
    linked = werfund_link(site, body);
    *word = (uint32_t)linked;
    return (uint32_t)(linked >> 32);
}

#ifdef __cplusplus
}
#endif

#endif
