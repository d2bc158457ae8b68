/* Reserves code space for two copies of document 01's block of no operations by the number of words that it needs, translates it there, copies it
 * behind itself, and links the first copy's chain site with the second copy's body. */
#include <stdio.h>
#include <stdlib.h>
#include <string.h>

#include "../werfund.h"

/* Tag, length of two bytes, payload; numbers have their lowest byte first. */
static const uint8_t record[77] = {
    1, 20, 0,                                        /* offsets in the processor record */
    0, 0, 0, 0, 64, 0, 0, 0, 68, 0, 0, 0,            /* regs 0, sp 64, rets 68, */
    72, 0, 0, 0, 76, 0, 0, 0,                        /* pc 72, hold 76 */
    2, 17, 0,                                        /* memory */
    0, 0, 0, 1, 0, 0, 1, 0,                          /* RAM 01000000, length 00010000 */
    0, 0, 0, 2, 0, 0, 16, 0, 0,                      /* XIP 02000000, length 00100000, no code map */
    3, 24, 0,                                        /* the addresses of h_read, h_write and the jump table */
    0, 0, 0, 0, 0, 0, 0, 0, 0, 0, 0, 0, 0, 0, 0, 0, 0, 0, 0, 0, 0, 0, 0, 0,
    4, 4, 0, 0, 0, 0, 2                              /* the block's guest address, 02000000 */
};

static uint64_t table[WERFUND_TABLE];

static int refused(uint32_t fault, size_t place) {
    printf("refused %u %zu: %s\n", (unsigned)fault, place, werfund_fault_text(fault));
    return 1;
}

/* The block in `words` words of code space, its copy in as many behind them, and the first linked with the second. */
static int build(uint32_t *code, size_t words) {
    werfund_answer block = {0};
    uint32_t fault, branch;
    fault = werfund_translate_checked(record, sizeof record, code, words, table, &block);
    if (fault != WERFUND_ACCEPTED) {
        return refused(fault, block.place);
    }
    printf("words %u body %u sites %u\n", (unsigned)block.words, (unsigned)block.body, (unsigned)block.sites);
    memcpy(code + words, code, words * sizeof *code);

    /* Addresses as the processor will see them; here, those of the buffer. */
    uint32_t *site = code + block.site[0].at;
    int64_t body = (int64_t)(intptr_t)(code + words) + block.body;
    printf("site %u to %08x, word %08x\n", (unsigned)block.site[0].at, (unsigned)block.site[0].target, (unsigned)*site);
    fault = werfund_link_checked((int64_t)(intptr_t)site, body, &branch);
    if (fault != WERFUND_ACCEPTED) {
        printf("not linked %u: %s\n", (unsigned)fault, werfund_fault_text(fault));
        return 1;
    }
    *site = branch; /* on the card, the instruction cache is then told */
    printf("linked, word %08x\n", (unsigned)*site);
    return 0;
}

int main(void) {
    werfund_need need = {0};
    uint32_t fault, *code;
    int status;
    fault = werfund_words_needed_checked(record, sizeof record, table, &need);
    if (fault != WERFUND_ACCEPTED) {
        return refused(fault, need.place);
    }
    printf("needs %u\n", (unsigned)need.words);
    code = malloc(2 * need.words * sizeof *code);
    if (code == NULL) {
        printf("no code space\n");
        return 1;
    }
    status = build(code, need.words);
    free(code);
    return status;
}
