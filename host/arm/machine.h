/* Where enter.S and C keep registers: those of a start, of an end, and of a helper's call. */
#ifndef MACHINE_H
#define MACHINE_H

/* Offsets in struct registers, of which x is the first. */
#define SP 248
#define NZCV 256
#define D8 264
#define BACK 328

/* Landing pads, of two words each. */
#define PADS 64

#ifndef __ASSEMBLER__

#include <stdint.h>

struct registers {
    uint64_t x[31];
    uint64_t sp;
    uint64_t nzcv;
    uint64_t d[8]; /* d8 to d15 */
    uint64_t back; /* of a call alone: where the block goes on */
};

/* enter.S */
int enter(const struct registers *start, uint64_t pc, struct registers *end);
extern const uint32_t left[], pads[], h_read[], h_write[], h_ram_ok[];

/* scene.c: what the helpers call, with a host's own types */
extern struct registers call;
uint32_t answer_read(const void *context, uint32_t address, uint32_t index, uint32_t width);
void answer_write(const void *context, uint32_t address, uint32_t value, uint32_t index, uint32_t width);
uint32_t answer_ram_ok(const void *context, const void *guard);

#endif
#endif
