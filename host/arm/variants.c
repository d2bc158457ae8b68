/* Variants of a run. What the other block does, and what it asks, is added to the run's start, end, outcomes and requests. */
#include "variants.h"

#include <string.h>

/* Kinds of operations. */
enum { MOV_I = 1, ADD_RI = 3, SP_ADD = 19, LD = 21, ST = 22, DEC_BR = 32, TB = 49 };

reason as_written(scene *s) {
    (void)s;
    return PLAYED;
}

/* The limit test comes first, before a guard's: pc is the block's address, all else as at the start. */
reason limited(scene *s) {
    run *r = &s->run;
    size_t count = operations(&s->block);
    if (count == 0) {
        return UNBOUNDED;
    }
    r->start.limit = r->start.done + (uint32_t)count - 1;
    r->end = r->start;
    r->end.pc = guest(&s->block);
    r->left = BY_RETURN;
    r->request_count = 0;
    return PLAYED;
}

/* ---- requests of the other block */

/* The outside alters nothing. */
static outcome nothing(const state *c, uint32_t answer) {
    return (outcome){answer, c->brk, c->ram, c->map, 1, 1, {c->versions[0], c->versions[1]}};
}

static request guard_request(const scene *s) {
    return (request){.kind = GUARDS, .address = address(&s->block, GUARD_ADDRESS)};
}

/* Before all requests of the run, and behind them; outcomes that the run has to spare go. */
static void ask_first(run *r, request q, uint32_t answer) {
    memmove(r->requests + 1, r->requests, sizeof q * r->request_count++);
    memmove(r->outcomes + 1, r->outcomes, sizeof *r->outcomes * r->outcome_count++);
    r->requests[0] = q;
    r->outcomes[0] = nothing(&r->start, answer);
}

static void ask_last(run *r, request q, uint32_t answer) {
    r->outcomes[r->request_count] = nothing(&r->end, answer);
    r->requests[r->request_count++] = q;
    r->outcome_count = r->request_count;
}

/* ---- from another block */

/* The other block is a Tb of guest length 0, which changes no register: it reads a byte k at its own address plus a register and jumps to
 * its address plus 2 k, here the block's. A register and a k will do if the byte lies outside, so that k is the answer to a request, or
 * is k where it lies. */
typedef struct reading {
    uint32_t reg, k, from, address;
    int requested;
} reading;

static int reads(const scene *s, reading *b) {
    uint32_t at;
    b->from = guest(&s->block) - 2 * b->k;
    b->address = b->from + s->run.start.regs[b->reg];
    b->requested = 0;
    if (inside(&s->block, IN_RAM, b->address, 1, &at)) {
        return s->run.start.ram[at] == b->k;
    }
    if (inside(&s->block, IN_XIP, b->address, 1, &at)) {
        return s->run.xip[at] == b->k;
    }
    return b->requested = 1;
}

static int find_reading(const scene *s, reading *b) {
    for (b->reg = 0; b->reg < 16; b->reg++) {
        for (b->k = 0; b->k < 256; b->k++) {
            if (reads(s, b) && startable(&s->block, b->from)) {
                return 1;
            }
        }
    }
    return 0;
}

static reason unentered(const scene *s, reading *b) {
    const run *r = &s->run;
    if (r->start.brk != 0) {
        return BROKEN;
    }
    if (r->start.done > r->start.limit) {
        return ABOVE_LIMIT;
    }
    if (r->start.done + (uint64_t)operations(&s->block) + 1 > UINT32_MAX) {
        return TOO_MANY;
    }
    for (size_t i = 0; i < r->entry_count; i++) {
        if (r->entries[i].index == index_of(guest(&s->block))) {
            return TABLED;
        }
    }
    return find_reading(s, b) ? PLAYED : NO_BYTE;
}

/* The other block starts as the run does, at its first word or body. Limit, indices and the done count at the end are one more. */
reason entered(scene *s) {
    run *r = &s->run;
    reading b;
    reason why = unentered(s, &b);
    if (why != PLAYED) {
        return why;
    }
    s->linking = FROM_OTHER;
    s->other = another(&s->block, b.from);
    operation(&s->other, TB, 0, 2, (uint32_t[]){b.reg, 0});
    for (size_t i = 0; i < r->request_count; i++) {
        r->requests[i].index += r->requests[i].kind != GUARDS;
    }
    r->end.done++;
    r->start.limit += r->start.limit != UINT32_MAX;
    if (b.requested) {
        ask_first(r, (request){READS, b.address, 0, 1, r->start.done}, b.k);
    }
    if (guarded(&s->other) && r->start.versions[0] != r->start.versions[1]) {
        ask_first(r, guard_request(s), 1);
    }
    return PLAYED;
}

/* ---- on to another block */

/* The other block adds to each register and to sp, loads RAM's first word and XIP's, and stores a word at RAM's base, so that all that
 * the first hands on is used. 19 operations are done at the first break check; the store is the last of 22. */
enum { FIRST_CHECK = 19, STORE = 21, MORE = 22 };

static uint32_t addend(uint32_t d) {
    return 0x01000193u * (d + 1);
}

/* An operation's guest length: in RAM none, so that the block does not reach past its end. */
static uint8_t length_at(uint32_t pc) {
    return in_flash(pc) ? 2 : 0;
}

static record visitor(const record *block, uint32_t pc) {
    record r = another(block, pc);
    uint8_t length = length_at(pc);
    for (uint32_t d = 0; d < 16; d++) {
        operation(&r, ADD_RI, length, 3, (uint32_t[]){d, d, addend(d)});
    }
    operation(&r, SP_ADD, length, 1, (uint32_t[]){addend(16)});
    operation(&r, MOV_I, length, 2, (uint32_t[]){0, base_of(block, IN_RAM)});
    operation(&r, LD, length, 5, (uint32_t[]){1, 0, 0, 4, 0});
    operation(&r, MOV_I, length, 2, (uint32_t[]){2, base_of(block, IN_XIP)});
    operation(&r, LD, length, 5, (uint32_t[]){3, 2, 0, 4, 0});
    operation(&r, ST, length, 4, (uint32_t[]){4, 0, 0, 4});
    return r;
}

/* The word at a region's base; RAM is tried first. */
static uint32_t loaded(const scene *s, uint32_t from) {
    const uint8_t *memory = s->run.end.ram;
    uint32_t at, v;
    if (!inside(&s->block, IN_RAM, from, 4, &at)) {
        inside(&s->block, IN_XIP, from, 4, &at);
        memory = s->run.xip;
    }
    memcpy(&v, memory + at, sizeof v);
    return v;
}

/* Register 4 at RAM's base: there, or by a request where its group's map byte is set. */
static void stored(scene *s, uint32_t index) {
    run *r = &s->run;
    if (r->map_bytes != 0 && r->end.map[0] != 0) {
        ask_last(r, (request){WRITES, base_of(&s->block, IN_RAM), r->end.regs[4], 4, index}, 0);
    } else {
        memcpy(s->ram, r->end.ram, r->ram_bytes);
        memcpy(s->ram, &r->end.regs[4], 4);
        r->end.ram = s->ram;
    }
}

/* The run's end, behind the other block. */
static void visited(scene *s) {
    run *r = &s->run;
    uint32_t count = r->end.brk != 0 ? FIRST_CHECK : MORE;
    for (uint32_t d = 0; d < 16; d++) {
        r->end.regs[d] += addend(d);
    }
    r->end.sp += addend(16);
    r->end.regs[0] = base_of(&s->block, IN_RAM);
    r->end.regs[1] = loaded(s, r->end.regs[0]);
    r->left = BY_RETURN;
    if (r->end.brk == 0) {
        r->end.regs[2] = base_of(&s->block, IN_XIP);
        r->end.regs[3] = loaded(s, r->end.regs[2]);
        stored(s, r->end.done + STORE);
        r->left = BY_CHAIN;
    }
    r->end.done += count;
    r->end.pc += count * length_at(r->end.pc);
}

/* The other block stands at the site's target. */
static reason linked(scene *s, uint32_t limit) {
    run *r = &s->run;
    if (r->left != BY_CHAIN) {
        return UNCHAINED;
    }
    if (!startable(&s->block, r->end.pc)) {
        return NO_START;
    }
    if ((uint64_t)r->end.done + MORE > UINT32_MAX) {
        return TOO_MANY;
    }
    s->linking = TO_OTHER;
    s->linked = r->site;
    s->other = visitor(&s->block, r->end.pc);
    r->start.limit = r->end.done + limit;
    return PLAYED;
}

reason onward(scene *s) {
    run *r = &s->run;
    reason why = linked(s, MORE);
    if (why != PLAYED) {
        return why;
    }
    if (guarded(&s->other) && r->end.versions[0] != r->end.versions[1]) {
        ask_last(r, guard_request(s), 1);
    }
    visited(s);
    return PLAYED;
}

/* The slot stays as it was: the first block's site is linked, the other's limit test leaves by the return. */
reason held_up(scene *s) {
    reason why = linked(s, MORE - 1);
    if (why == PLAYED) {
        s->run.left = BY_RETURN;
    }
    return why;
}

/* ---- a block linked with itself */

enum { LOOP_PC = 0x02000000, LOOP_STEP = 3, LOOP_OPERATIONS = 2, LOOP_ROUNDS = LOOP_DONE / LOOP_OPERATIONS };

/* Document 01's layout, RAM and XIP of four bytes each. Register 0 rises, register 1 falls; on to the start while it is not 0. */
static record loop_record(void) {
    static const uint8_t head[77] = {1, 20, 0, 0, 0, 0, 0, 64, 0, 0, 0, 68, 0, 0, 0, 72, 0, 0,  0, 76,       0, 0, 0, 2, 17, 0, 0,
                                     0, 0,  1, 4, 0, 0, 0, 0,  0, 0, 2, 4,  0, 0, 0, 0,  3, 24, 0, [70] = 4, 4, 0, 0, 0, 0,  2};
    record r = record_of(head, sizeof head);
    operation(&r, ADD_RI, 2, 3, (uint32_t[]){0, 0, LOOP_STEP});
    operation(&r, DEC_BR, 2, 4, (uint32_t[]){1, 1, 0, LOOP_PC});
    return r;
}

/* Of its two sites the first leads to the address behind the block, the second to its start. */
scene loop_scene(uint32_t limit) {
    static const uint8_t memory[4] = {1, 2, 3, 4};
    uint32_t rounds = limit / LOOP_OPERATIONS < LOOP_ROUNDS ? limit / LOOP_OPERATIONS : LOOP_ROUNDS;
    scene s = {.block = loop_record(), .linking = TO_ITSELF, .run = {.name = "loop", .xip = memory, .ram_bytes = 4, .xip_bytes = 4}};
    region code;
    werfund_answer a = translated(&code, &s.block, AT_END, 0);
    release(&code);
    s.linked = a.site[1].at;
    s.run.start.ram = memory;
    s.run.start.regs[1] = LOOP_ROUNDS;
    s.run.start.limit = limit;
    s.run.end = s.run.start;
    s.run.end.regs[0] = LOOP_STEP * rounds;
    s.run.end.regs[1] = LOOP_ROUNDS - rounds;
    s.run.end.done = LOOP_OPERATIONS * rounds;
    s.run.end.pc = rounds == LOOP_ROUNDS ? LOOP_PC + 4 : LOOP_PC;
    s.run.left = rounds == LOOP_ROUNDS ? BY_CHAIN : BY_RETURN;
    s.run.site = a.site[0].at;
    return s;
}
