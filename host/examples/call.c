/* A host on an Arm board: translates a block of seven operations, puts its words into executable memory and calls it. The helpers, which
 * stand for the outside, say what they are asked.
 *
 * For AArch64 Linux: host/arm/test.sh builds and runs it.
 */
#include <stdio.h>
#include <stdlib.h>
#include <string.h>
#include <sys/mman.h>

#include "../werfund.h"

/* A block's code, by AAPCS64; it answers how many operations are done. Without a code map any pointer will do for it. */
typedef uint32_t block_code(void *processor, void *context, void *ram, const void *xip, uint32_t limit, void *map);

/* The processor record, whose offsets field 01 has: any struct of the host's. */
typedef struct processor {
    uint32_t regs[16], sp, rets, pc, hold;
} processor;

/* The context: three numbers of the host's own, the break word at byte 24, the slot at byte 32. */
typedef struct context {
    uint64_t own[3];
    uint32_t brk, unused;
    uint32_t *slot;
} context;

typedef struct entry {
    uint32_t guest, unused;
    void *body;
} entry;

static entry jump_table[16384];
static uint8_t ram[0x10000], xip[0x100000];
static uint64_t table[WERFUND_TABLE];

/* ---- the outside: a device at 40000000 */

static uint32_t h_read(context *c, uint32_t address, uint32_t index, uint32_t width) {
    (void)c;
    printf("read %08x width %u, operation %u\n", (unsigned)address, (unsigned)width, (unsigned)index);
    return 0x55;
}

static void h_write(context *c, uint32_t address, uint32_t value, uint32_t index, uint32_t width) {
    (void)c;
    printf("write %08x to %08x width %u, operation %u\n", (unsigned)value, (unsigned)address, (unsigned)width, (unsigned)index);
}

/* ---- the record */

static uint8_t record[512];
static size_t bytes;

/* A number, lowest byte first. */
static void put(uint64_t v, int count) {
    for (int i = 0; i < count; i++) {
        record[bytes++] = (uint8_t)(v >> 8 * i);
    }
}

static void field(int tag, int length) {
    put((uint64_t)tag, 1);
    put((uint64_t)length, 2);
}

static void operation(int kind, int operands, const uint32_t *operand) {
    field(5, 3 + 4 * operands);
    put((uint64_t)kind, 1);
    put(2, 1); /* guest length */
    put(0, 1); /* no glue */
    for (int i = 0; i < operands; i++) {
        put(operand[i], 4);
    }
}

static void make_record(void) {
    static const uint32_t offset[5] = {offsetof(processor, regs), offsetof(processor, sp), offsetof(processor, rets),
                                       offsetof(processor, pc), offsetof(processor, hold)};
    field(1, 20);
    for (int i = 0; i < 5; i++) {
        put(offset[i], 4);
    }
    field(2, 17);
    put(0x01000000, 4);
    put(sizeof ram, 4);
    put(0x02000000, 4);
    put(sizeof xip, 4);
    put(0, 1); /* no code map */
    field(3, 24);
    put((uintptr_t)h_read, 8);
    put((uintptr_t)h_write, 8);
    put((uintptr_t)jump_table, 8);
    field(4, 4);
    put(0x02000100, 4);
    operation(1, 2, (uint32_t[]){3, 0x12345678});  /* MovI r3 */
    operation(1, 2, (uint32_t[]){4, 0x01000010});  /* MovI r4, in RAM */
    operation(22, 4, (uint32_t[]){3, 4, 4, 4});    /* St r3 at r4 + 4 */
    operation(21, 5, (uint32_t[]){5, 4, 4, 2, 1}); /* Ld r5 from there, a signed halfword */
    operation(1, 2, (uint32_t[]){4, 0x40000000});  /* MovI r4, the device */
    operation(21, 5, (uint32_t[]){6, 4, 8, 1, 0}); /* Ld r6 from it, a byte */
    operation(22, 4, (uint32_t[]){6, 4, 12, 4});   /* St r6 to it */
}

/* ---- the block */

/* Words where they can be executed. Null where there is no memory. */
static uint32_t *executable(size_t words) {
    void *code = mmap(NULL, words * sizeof(uint32_t), PROT_READ | PROT_WRITE, MAP_PRIVATE | MAP_ANONYMOUS, -1, 0);
    return code == MAP_FAILED ? NULL : code;
}

static int run(const uint32_t *code, const werfund_answer *block) {
    processor cpu = {0};
    context c = {{0}, 0, 0, NULL};
    block_code *call = (block_code *)(uintptr_t)code;
    uint32_t done = call(&cpu, &c, ram, xip, 100, NULL), word;
    memcpy(&word, ram + 0x14, sizeof word);
    printf("done %u, pc %08x, r3 %08x, r5 %08x, r6 %08x, RAM %08x\n", (unsigned)done, (unsigned)cpu.pc, (unsigned)cpu.regs[3],
           (unsigned)cpu.regs[5], (unsigned)cpu.regs[6], (unsigned)word);
    printf("left by the site at word %u, listed %u\n", (unsigned)(c.slot - code), (unsigned)block->site[0].at);
    return c.slot == code + block->site[0].at ? 0 : 1;
}

int main(void) {
    werfund_need need;
    werfund_answer block;
    uint32_t *code, fault;
    make_record();
    fault = werfund_words_needed_checked(record, bytes, table, &need);
    code = fault == WERFUND_ACCEPTED ? executable(need.words) : NULL;
    if (code == NULL || (fault = werfund_translate_checked(record, bytes, code, need.words, table, &block)) != WERFUND_ACCEPTED) {
        printf("refused: %s\n", werfund_fault_text(fault));
        return 1;
    }
    printf("words %u, sites %u\n", (unsigned)block.words, (unsigned)block.sites);
    __builtin___clear_cache((char *)code, (char *)(code + block.words));
    if (mprotect(code, need.words * sizeof *code, PROT_READ | PROT_EXEC) != 0) {
        perror("mprotect");
        return 1;
    }
    return run(code, &block);
}
