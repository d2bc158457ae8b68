/* A block run on the processor, and how it ends. */
#ifndef SCENE_H
#define SCENE_H

#include "../werfund.h"
#include "records.h"
#include "regions.h"
#include "runs.h"

typedef enum { ALONE, FROM_OTHER, TO_OTHER, TO_ITSELF } linking;

/* Start, outcomes and the end that is due are `run`'s; the block is `block`'s. Another block may stand beside it: FROM_OTHER the run starts
 * there, at its first word or body, and the jump table has the block's body; TO_OTHER the chain site at word `linked` is linked with its
 * body, TO_ITSELF with that of the block, and the end is that behind the link. Where `altered`, of the word at `word` the bits of `keep`
 * stay, the others are 0, and those of `flip` are flipped. A quiet scene prints nothing, and has less time. */
typedef struct scene {
    run run;
    record block, other;
    linking linking;
    placing placing;
    int quiet, altered;
    uint32_t linked, word;
    uint32_t keep, flip;
    uint8_t ram[MOST_MEMORY]; /* room for the end's, where it is none of the file's */
} scene;

typedef enum { AS_DUE, OTHERWISE, TRAPPED, UNENDING, RESULTS } result;

/* The run as it is written. */
scene scene_of(const run *r);

/* The block's entry in the jump table, by its guest address. */
uint32_t index_of(uint32_t pc);

/* A record's words, in a region of exactly as many bytes; a refusal ends the program. */
werfund_answer translated(region *code, const record *r, placing how, uint64_t written);

/* The deepest stack of calls of a function so far, in bytes: one more call, by AAPCS64, on a stack of junk. */
size_t depth(size_t deepest, uint64_t function, size_t count, const uint64_t *argument);

/* Traps and the alarm are seen from then on; once, before the first scene. */
void watch(void);

/* A line for each difference. */
result play(const scene *s);

#endif
