/* A run on the processor, step by step: regions are laid, the record is translated into one, start and expected end are written down, the
 * block is entered (enter.S), its requests are met as the outcomes say, and all that it left is compared.
 *
 * Code, stack, processor record, context, RAM, XIP, code map, jump table and guard have a page on each side that traps; code, XIP and jump
 * table cannot be written. What premises leave open is junk: other registers, flags, upper halves, what a call alters, bytes around.
 */
#include "scene.h"

#include <inttypes.h>
#include <setjmp.h>
#include <signal.h>
#include <stdarg.h>
#include <stdio.h>
#include <stdlib.h>
#include <string.h>
#include <sys/mman.h>
#include <unistd.h>

#include "machine.h"

_Static_assert(offsetof(struct registers, sp) == SP && offsetof(struct registers, nzcv) == NZCV && offsetof(struct registers, d) == D8 &&
                   offsetof(struct registers, back) == BACK,
               "machine.h has the offsets");
_Static_assert(MOST_ENTRIES <= PADS, "an entry has a pad");

/* A region for each place, another block's code, and the helpers' jumps where the run writes their addresses. */
enum { CODE, OTHER, STACK, CPU, CONTEXT, RAM, XIP, MAP, TABLE, GUARD, HELPERS, REGIONS };

/* Sizes and places of document 01, and of the frame that the opening words store. */
enum { FRAME = 96, TABLE_ENTRIES = 16384, ENTRY = 16, BODY = 8, BRK = 24, SLOT = 32, VERSION = 40 };

/* Registers of the frame, in order. */
enum { FRAME_REGISTERS = FRAME / 8 };
static const int in_frame[FRAME_REGISTERS] = {29, 30, 19, 20, 21, 22, 23, 24, 25, 26, 27, 28};

static struct world {
    const scene *s;
    region of[REGIONS];
    werfund_answer block, other;
    struct registers start, end;
    uint64_t caller[31]; /* registers as the frame keeps them for the caller */
    size_t asked;
    int otherwise;
} now;

struct registers call;

/* A line, unless the scene is quiet: the run, and what of it. */
__attribute__((format(printf, 2, 3))) static void differs(int differ, const char *form, ...) {
    static const char *const PLACING[PLACINGS] = {"as written", "at a page's end", "at a page's start"};
    va_list what;
    if (!differ) {
        return;
    }
    now.otherwise = 1;
    if (!now.s->quiet) {
        va_start(what, form);
        printf("%s, %s: ", now.s->run.name, PLACING[now.s->placing]);
        vprintf(form, what);
        printf("\n");
        va_end(what);
    }
}

scene scene_of(const run *r) {
    return (scene){.run = *r, .block = record_of(r->record, r->bytes)};
}

/* ---- the places */

static uint64_t number(const void *p) {
    return (uint64_t)(uintptr_t)p;
}

static uint64_t base(int region) {
    return number(now.of[region].at);
}

/* Room for what the offsets of field 01 name. */
static size_t cpu_bytes(const record *r) {
    size_t most = 0;
    for (int i = 0; i < OFFSETS; i++) {
        size_t end = offset(r, i) + (i == REGS ? 64u : 4u);
        most = end > most ? end : most;
    }
    return most;
}

static void lay_regions(const scene *s) {
    const run *r = &s->run;
    const struct {
        int region;
        size_t bytes;
        uint64_t written;
    } plan[] = {
        {STACK, FRAME, r->places[STACK_PLACE] - FRAME},
        {CPU, cpu_bytes(&s->block), r->places[CPU_PLACE]},
        {CONTEXT, guarded(&s->block) ? VERSION + 8 : SLOT + 8, r->places[CONTEXT_PLACE]},
        {RAM, r->ram_bytes, r->places[RAM_PLACE]},
        {XIP, r->xip_bytes, r->places[XIP_PLACE]},
        {MAP, r->map_bytes, r->places[MAP_PLACE]},
        {TABLE, TABLE_ENTRIES * ENTRY, address(&s->block, TABLE_ADDRESS)},
        {GUARD, guarded(&s->block) ? 8 : 0, address(&s->block, GUARD_ADDRESS)},
    };
    for (size_t i = 0; i < sizeof plan / sizeof *plan; i++) {
        now.of[plan[i].region] = lay(plan[i].bytes, s->placing, plan[i].written);
    }
}

/* Where the run writes the helpers' addresses: a jump to each. */
static void lay_helpers(const record *r) {
    static const int of[3] = {READ_ADDRESS, WRITE_ADDRESS, RAM_OK_ADDRESS};
    const uint32_t *const helper[3] = {h_read, h_write, h_ram_ok};
    uint64_t low = UINT64_MAX, high = 0;
    int count = guarded(r) ? 3 : 2;
    for (int i = 0; i < count; i++) {
        low = address(r, of[i]) < low ? address(r, of[i]) : low;
        high = address(r, of[i]) > high ? address(r, of[i]) : high;
    }
    now.of[HELPERS] = lay((size_t)(high - low) + 16, WRITTEN, low);
    for (int i = 0; i < count; i++) {
        size_t at = (size_t)(address(r, of[i]) - low);
        put32(&now.of[HELPERS], at, 0x58000050);     /* ldr x16, the number behind the next word */
        put32(&now.of[HELPERS], at + 4, 0xd61f0200); /* br x16 */
        put64(&now.of[HELPERS], at + 8, number(helper[i]));
    }
    protect(&now.of[HELPERS], PROT_READ | PROT_EXEC);
}

/* Elsewhere: the addresses that they have here, and those of table and guard. */
static void set_addresses(record *r) {
    set_address(r, READ_ADDRESS, number(h_read));
    set_address(r, WRITE_ADDRESS, number(h_write));
    set_address(r, TABLE_ADDRESS, base(TABLE));
    set_address(r, GUARD_ADDRESS, base(GUARD));
    set_address(r, RAM_OK_ADDRESS, number(h_ram_ok));
}

werfund_answer translated(region *code, const record *r, placing how, uint64_t written) {
    static uint64_t table[WERFUND_TABLE];
    werfund_need need = {0};
    werfund_answer answer = {0};
    uint32_t fault = werfund_words_needed_checked(r->byte, r->bytes, table, &need);
    if (fault == WERFUND_ACCEPTED) {
        *code = lay(4 * (size_t)need.words, how, written);
        fault = werfund_translate_checked(r->byte, r->bytes, (uint32_t *)(void *)code->at, need.words, table, &answer);
    }
    if (fault != WERFUND_ACCEPTED || answer.words != need.words) {
        fprintf(stderr, "refused %u %zu: %s\n", (unsigned)fault, answer.place, werfund_fault_text(fault));
        exit(1);
    }
    return answer;
}

/* Whether the block has a chain site at that word, listed for that target. */
static int listed(uint32_t at, uint32_t target) {
    const werfund_answer *a = &now.block;
    int found = 0;
    for (size_t i = 0; i < a->sites; i++) {
        found = found || (a->site[i].at == at && a->site[i].target == target);
    }
    return found;
}

/* The branch to a body, at the block's site for that target. */
static void link_site(uint32_t at, uint32_t target, uint64_t body) {
    uint32_t word;
    if (!listed(at, target) || werfund_link_checked((int64_t)(base(CODE) + 4 * (uint64_t)at), (int64_t)body, &word) != WERFUND_ACCEPTED) {
        differs(1, "a link");
    } else {
        put32(&now.of[CODE], 4 * (size_t)at, word);
    }
}

static void alter(region *code, const scene *s) {
    uint32_t word;
    memcpy(&word, code->at + 4 * (size_t)s->word, sizeof word);
    put32(code, 4 * (size_t)s->word, (word & s->keep) ^ s->flip);
}

static void lay_code(const scene *s) {
    record block = s->block, other = s->other;
    if (s->placing == WRITTEN) {
        lay_helpers(&block);
    } else {
        set_addresses(&block);
        set_addresses(&other);
    }
    now.block = translated(&now.of[CODE], &block, s->placing, s->run.places[CODE_PLACE]);
    if (other.bytes != 0) { /* of the other block no place is written: it stands behind the block */
        now.other = translated(&now.of[OTHER], &other, s->placing, s->run.places[CODE_PLACE] + 0x1000000);
    }
    if (s->linking == TO_OTHER) {
        link_site(s->linked, guest(&other), base(OTHER) + now.other.body);
    } else if (s->linking == TO_ITSELF) {
        link_site(s->linked, guest(&block), base(CODE) + now.block.body);
    }
    if (s->altered) {
        alter(&now.of[CODE], s);
    }
    protect(&now.of[CODE], PROT_READ | PROT_EXEC);
    protect(&now.of[OTHER], PROT_READ | PROT_EXEC);
}

/* ---- the start */

uint32_t index_of(uint32_t pc) {
    return pc >> 1 & (TABLE_ENTRIES - 1);
}

static void tabled(uint32_t index, uint32_t pc, uint64_t body) {
    put32(&now.of[TABLE], ENTRY * (size_t)index, pc);
    put64(&now.of[TABLE], ENTRY * (size_t)index + BODY, body);
}

/* A body of the run's table is a landing pad, by the entry's number. */
static void start_table(const scene *s) {
    for (size_t i = 0; i < s->run.entry_count; i++) {
        tabled(s->run.entries[i].index, s->run.entries[i].guest, number(pads) + 8 * i);
    }
    if (s->linking == FROM_OTHER) {
        tabled(index_of(guest(&s->block)), guest(&s->block), base(CODE) + now.block.body);
    }
    protect(&now.of[TABLE], PROT_READ);
}

/* What `into` writes, now or as due, of a state: all but pc and slot. */
static void card(const scene *s, const state *c, void into(region *, size_t, const void *, size_t)) {
    const record *r = &s->block;
    into(&now.of[CPU], offset(r, REGS), c->regs, sizeof c->regs);
    into(&now.of[CPU], offset(r, SP_CELL), &c->sp, 4);
    into(&now.of[CPU], offset(r, RETS), &c->rets, 4);
    into(&now.of[CPU], offset(r, HOLD), &c->hold, 4);
    into(&now.of[CONTEXT], BRK, &c->brk, 4);
    if (guarded(r)) {
        into(&now.of[CONTEXT], VERSION, &c->versions[0], 8);
        into(&now.of[GUARD], 0, &c->versions[1], 8);
    }
    into(&now.of[RAM], 0, c->ram, s->run.ram_bytes);
    into(&now.of[MAP], 0, c->map, s->run.map_bytes);
}

static void start_memory(const scene *s) {
    card(s, &s->run.start, put);
    put32(&now.of[CPU], offset(&s->block, PC), s->run.start.pc);
    put(&now.of[XIP], 0, s->run.xip, s->run.xip_bytes);
    protect(&now.of[XIP], PROT_READ);
}

static struct registers any_registers(void) {
    struct registers r;
    for (size_t i = 0; i < sizeof r; i += sizeof(uint64_t)) {
        memcpy((char *)&r + i, &(uint64_t){junk()}, sizeof(uint64_t));
    }
    r.nzcv &= 0xf0000000u;
    return r;
}

/* The upper half is open. */
static uint64_t low32(uint32_t v) {
    return junk() << 32 | v;
}

/* At the first word the arguments by AAPCS64, processor record, context, RAM, XIP, limit and map; at the body the registers into which the
 * opening words move them, the done count, and the frame. Without a map its register is open too. */
static void start_registers(const scene *s) {
    static const int argument[6] = {CPU, CONTEXT, RAM, XIP, -1, MAP}, moved[6] = {19, 20, 21, 22, 27, 25};
    struct registers *r = &now.start;
    *r = any_registers();
    r->sp = base(STACK) + FRAME;
    r->x[30] = number(left);
    memcpy(now.caller, r->x, sizeof now.caller);
    for (int i = 0; i < 6; i++) {
        uint64_t v = argument[i] == -1 ? low32(s->run.start.limit) : now.of[argument[i]].bytes == 0 ? junk() : base(argument[i]);
        r->x[s->run.at_body ? moved[i] : i] = v;
    }
    if (s->run.at_body) {
        for (int i = 0; i < FRAME_REGISTERS; i++) {
            put64(&now.of[STACK], 8 * (size_t)i, now.caller[in_frame[i]]);
        }
        r->sp -= FRAME;
        r->x[26] = low32(s->run.start.done);
        r->x[29] = junk();
        r->x[30] = junk();
    }
}

static uint64_t first_pc(const scene *s) {
    if (s->linking == FROM_OTHER) {
        return base(OTHER) + (s->run.at_body ? now.other.body : 0);
    }
    return base(CODE) + (s->run.at_body ? now.block.body : 0);
}

/* ---- the outside */

/* A guard's address is the one that it has here. */
static int same_request(const request *due, const request *q) {
    return due->kind == q->kind && (due->kind == GUARDS ? base(GUARD) : due->address) == q->address && due->value == q->value &&
           due->width == q->width && due->index == q->index;
}

typedef struct text {
    char chars[80];
} text;

static text said(const request *q) {
    static const char *const KIND[] = {"read", "write", "guard"};
    text t;
    snprintf(t.chars, sizeof t.chars, "%s %" PRIx64 " value %x width %u index %x", KIND[q->kind], q->address, (unsigned)q->value,
             (unsigned)q->width, (unsigned)q->index);
    return t;
}

/* RAM, map, break word and versions are then the outcome's. What the outside kept must be so already: earlier stores are in it. */
static void meet(const scene *s, const outcome *o) {
    differs(o->ram_kept && memcmp(now.of[RAM].at, o->ram, s->run.ram_bytes) != 0, "RAM at a request");
    differs(o->map_kept && s->run.map_bytes != 0 && memcmp(now.of[MAP].at, o->map, s->run.map_bytes) != 0, "the code map at a request");
    put(&now.of[RAM], 0, o->ram, s->run.ram_bytes);
    put(&now.of[MAP], 0, o->map, s->run.map_bytes);
    put32(&now.of[CONTEXT], BRK, o->brk);
    if (guarded(&s->block)) {
        put64(&now.of[CONTEXT], VERSION, o->versions[0]);
        put64(&now.of[GUARD], 0, o->versions[1]);
    }
}

/* The answer to a request, which must be the one that is due; and the registers with which the call comes back. */
static uint32_t answered(const void *context, request q) {
    const run *r = &now.s->run;
    uint64_t sp = call.sp, back = call.back;
    uint32_t answer = (uint32_t)junk();
    differs(number(context) != base(CONTEXT), "a call's context");
    differs(sp != base(STACK), "sp at a call");
    if (now.asked >= r->request_count || now.asked >= r->outcome_count) {
        differs(1, "a request more: %s", said(&q).chars);
    } else if (!same_request(&r->requests[now.asked], &q)) {
        differs(1, "a request: %s, due %s", said(&q).chars, said(&r->requests[now.asked]).chars);
    } else {
        meet(now.s, &r->outcomes[now.asked]);
        answer = r->outcomes[now.asked].answer;
    }
    now.asked++;
    call = any_registers();
    call.sp = sp;
    call.back = back;
    return answer;
}

uint32_t answer_read(const void *context, uint32_t address, uint32_t index, uint32_t width) {
    return answered(context, (request){READS, address, 0, width, index});
}

void answer_write(const void *context, uint32_t address, uint32_t value, uint32_t index, uint32_t width) {
    answered(context, (request){WRITES, address, value, width, index});
}

uint32_t answer_ram_ok(const void *context, const void *guard) {
    return answered(context, (request){.kind = GUARDS, .address = number(guard)});
}

/* ---- the end */

/* The address of the chain site by which the run leaves: behind a link the other block's only one. */
static uint64_t site_address(const scene *s) {
    return s->linking == TO_OTHER ? base(OTHER) + 4 * (uint64_t)now.other.site[0].at : base(CODE) + 4 * (uint64_t)s->run.site;
}

static void expect_memory(const scene *s) {
    for (int i = STACK; i < REGIONS; i++) {
        settle(&now.of[i]);
    }
    card(s, &s->run.end, expect);
    if (s->run.left != BY_TABLE) {
        expect32(&now.of[CPU], offset(&s->block, PC), s->run.end.pc);
    }
    if (s->run.left == BY_CHAIN) {
        expect64(&now.of[CONTEXT], SLOT, site_address(s));
    }
    for (int i = 0; i < FRAME_REGISTERS; i++) {
        expect64(&now.of[STACK], 8 * (size_t)i, now.caller[in_frame[i]]);
    }
}

static void compare_memory(void) {
    static const char *const NAME[REGIONS] = {"",           "",    "the stack",    "the processor record", "the context",
                                              "RAM",        "XIP", "the code map", "the jump table",       "the guard",
                                              "the helpers"};
    for (int i = STACK; i < REGIONS; i++) {
        if (!as_due(&now.of[i])) {
            uint8_t due;
            ptrdiff_t at = first_other(&now.of[i], &due);
            differs(1, "%s at byte %td is %02x, due %02x", NAME[i], at, now.of[i].at[at], due);
        }
    }
}

/* At the return W0 is the done count, and the caller has its registers and sp again. */
static void compare_return(const scene *s) {
    const struct registers *e = &now.end;
    differs((uint32_t)e->x[0] != s->run.end.done, "the done count is %x, due %x", (unsigned)e->x[0], (unsigned)s->run.end.done);
    for (int i = 19; i <= 30; i++) {
        differs(e->x[i] != now.caller[i], "register %d is %" PRIx64 ", the caller's was %" PRIx64, i, e->x[i], now.caller[i]);
    }
    differs(e->sp != base(STACK) + FRAME, "sp has moved by %" PRId64, (int64_t)(e->sp - base(STACK) - FRAME));
}

/* At a table jump W12 and W26 are pc and done count, and the body has what it starts with. */
static void compare_jump(const scene *s) {
    const uint64_t *x = now.end.x;
    differs((uint32_t)x[12] != s->run.end.pc, "pc in register 12 is %x, due %x", (unsigned)x[12], (unsigned)s->run.end.pc);
    differs((uint32_t)x[26] != s->run.end.done, "the done count in register 26 is %x, due %x", (unsigned)x[26], (unsigned)s->run.end.done);
    differs((uint32_t)x[27] != s->run.start.limit, "the limit in register 27 is %x, due %x", (unsigned)x[27], (unsigned)s->run.start.limit);
    differs(x[19] != base(CPU) || x[20] != base(CONTEXT) || x[21] != base(RAM) || x[22] != base(XIP), "an address for the body");
    differs(now.of[MAP].bytes != 0 && x[25] != base(MAP), "the code map's address for the body");
    differs(now.end.sp != base(STACK), "sp at a table jump");
}

/* `out` is the pad, -1 at the return. */
static void compare(const scene *s, int out) {
    int due = -1;
    for (size_t i = 0; s->run.left == BY_TABLE && i < s->run.entry_count; i++) {
        due = s->run.entries[i].body == s->run.body ? (int)i : due;
    }
    differs(out != due, "the way out");
    differs(s->run.left == BY_CHAIN && s->linking != TO_OTHER && !listed(s->run.site, s->run.end.pc), "the site's target");
    if (out == -1) {
        compare_return(s);
    } else {
        compare_jump(s);
    }
    differs(memcmp(now.end.d, now.start.d, sizeof now.end.d) != 0, "one of d8 to d15");
    differs(now.asked != s->run.request_count, "%zu requests, due %zu", now.asked, s->run.request_count);
    compare_memory();
}

/* ---- a call's stack */

size_t depth(size_t deepest, uint64_t function, size_t count, const uint64_t *argument) {
    region stack = lay(1 << 16, AT_END, 0);
    struct registers start = any_registers(), end;
    size_t untouched = 0;
    settle(&stack);
    memcpy(start.x, argument, count * sizeof *argument);
    start.x[30] = number(left);
    start.sp = number(stack.at + stack.bytes);
    enter(&start, function, &end);
    while (untouched < stack.bytes && stack.page[untouched] == stack.due[untouched]) {
        untouched++;
    }
    deepest = stack.bytes - untouched > deepest ? stack.bytes - untouched : deepest;
    release(&stack);
    return deepest;
}

/* ---- a scene */

static sigjmp_buf trap;
static volatile sig_atomic_t playing;

/* A trap outside a scene is a fault of the program's own. */
static void trapped(int signal) {
    if (!playing) {
        _exit(3);
    }
    siglongjmp(trap, signal);
}

/* On a stack of their own: a block's has no room. */
void watch(void) {
    static uint8_t room[65536];
    static const int signals[] = {SIGSEGV, SIGBUS, SIGILL, SIGTRAP, SIGFPE, SIGALRM};
    sigaltstack(&(stack_t){.ss_sp = room, .ss_size = sizeof room}, NULL);
    for (size_t i = 0; i < sizeof signals / sizeof *signals; i++) {
        sigaction(signals[i], &(struct sigaction){.sa_handler = trapped, .sa_flags = SA_ONSTACK}, NULL);
    }
}

static void prepare(const scene *s) {
    now = (struct world){.s = s};
    lay_regions(s);
    lay_code(s);
    start_table(s);
    start_memory(s);
    start_registers(s);
    expect_memory(s);
}

result play(const scene *s) {
    int signal;
    prepare(s);
    signal = sigsetjmp(trap, 1);
    playing = signal == 0;
    if (playing) {
        alarm(s->quiet ? 5 : 60);
        compare(s, enter(&now.start, first_pc(s), &now.end));
        playing = 0;
    } else {
        differs(1, "%s", signal == SIGALRM ? "it does not end" : strsignal(signal));
    }
    alarm(0);
    for (int i = 0; i < REGIONS; i++) {
        release(&now.of[i]);
    }
    return signal == SIGALRM ? UNENDING : signal != 0 ? TRAPPED : now.otherwise ? OTHERWISE : AS_DUE;
}
