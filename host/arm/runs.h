/* Runs of blocks, from files of the form that tests/oracle/runs/README.md gives. */
#ifndef RUNS_H
#define RUNS_H

#include <stddef.h>
#include <stdint.h>

/* The most that a run may have of each, of memory in bytes. No block asks more often: 32 operations, of 17 words at most, and a guard. Of
 * outcomes there may be some to spare; of both there is room for two that another block asks for. */
enum { MOST_ENTRIES = 64, MOST_REQUESTS = 32 * 17 + 1, MOST_OUTCOMES = MOST_REQUESTS + 16, MOST_MEMORY = 4096 };

/* What the card has. At the start `pc` is the processor record's old number, at the end the card's; `limit` is the start's alone. */
typedef struct state {
    uint32_t regs[16];
    uint32_t sp, rets, hold, brk, pc, done, limit;
    uint64_t versions[2]; /* the context's and the guard's */
    const uint8_t *ram, *map;
} state;

typedef struct entry {
    uint32_t index, guest;
    uint64_t body;
} entry;

/* RAM and code map as they are afterwards; `kept` where the outside altered none of it. */
typedef struct outcome {
    uint32_t answer, brk;
    const uint8_t *ram, *map;
    int ram_kept, map_kept;
    uint64_t versions[2];
} outcome;

typedef enum { READS, WRITES, GUARDS } ask;

/* A guard has an address alone. */
typedef struct request {
    ask kind;
    uint64_t address;
    uint32_t value, width, index;
} request;

typedef enum { BY_RETURN, BY_CHAIN, BY_TABLE } leaving;

typedef enum { CODE_PLACE, STACK_PLACE, CPU_PLACE, CONTEXT_PLACE, RAM_PLACE, XIP_PLACE, MAP_PLACE, PLACES } place;

typedef struct run {
    const char *name;
    const uint8_t *record;
    size_t bytes;
    int at_body;
    state start, end;
    const uint8_t *xip;
    size_t ram_bytes, xip_bytes, map_bytes;
    uint64_t places[PLACES];
    entry entries[MOST_ENTRIES];
    size_t entry_count;
    outcome outcomes[MOST_OUTCOMES + 2];
    size_t outcome_count;
    leaving left;
    uint32_t site;
    uint64_t body;
    request requests[MOST_REQUESTS + 2];
    size_t request_count;
    unsigned instructions;
} run;

typedef struct runs {
    run *run;
    size_t count;
} runs;

/* Adds a file's runs. One whose name is there already takes its place: of runs with one name that of the last file counts. A file that is
 * not of the form ends the program, with its line. */
void read_runs(runs *all, const char *path);

#endif
