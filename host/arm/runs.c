/* Reads runs of blocks. A line is a word and numbers; the word says which part of the current run they are (`LINES`). */
#include "runs.h"

#include <stdio.h>
#include <stdlib.h>
#include <string.h>

/* The file, the line and what is left of it; the current run, and the state that a line speaks of: its start, behind `end` its end. */
typedef struct reader {
    const char *path;
    unsigned long line;
    char *rest;
    run *now;
    state *of;
} reader;

static void wrong(const reader *r, const char *what) {
    fprintf(stderr, "%s:%lu: %s\n", r->path, r->line, what);
    exit(2);
}

static void *room(const reader *r, size_t bytes) {
    void *p = calloc(bytes + 1, 1);
    if (p == NULL) {
        wrong(r, "no memory");
    }
    return p;
}

/* ---- words of a line */

static int more(const reader *r) {
    return r->rest[strspn(r->rest, " \n")] != 0;
}

static char *word(reader *r) {
    char *w = r->rest + strspn(r->rest, " \n");
    size_t n = strcspn(w, " \n");
    if (n == 0) {
        wrong(r, "a word is missing");
    }
    r->rest = w + n + (w[n] != 0);
    w[n] = 0;
    return w;
}

static uint64_t number(reader *r) {
    char *w = word(r), *end;
    uint64_t v = strtoull(w, &end, 16);
    if (*end != 0) {
        wrong(r, "not a number");
    }
    return v;
}

static uint32_t number32(reader *r) {
    uint64_t v = number(r);
    if (v > UINT32_MAX) {
        wrong(r, "a number above 32 bits");
    }
    return (uint32_t)v;
}

static void numbers(reader *r, uint64_t *v, size_t count) {
    for (size_t i = 0; i < count; i++) {
        v[i] = number(r);
    }
}

/* Two digits a byte. A memory has as many bytes wherever the run names it. */
static const uint8_t *bytes(reader *r, const char *w, size_t *count) {
    size_t n = strlen(w) / 2;
    uint8_t *b = room(r, n);
    for (size_t i = 0; i < n; i++) {
        char digits[3] = {w[2 * i], w[2 * i + 1], 0}, *end;
        b[i] = (uint8_t)strtoul(digits, &end, 16);
        if (*end != 0) {
            wrong(r, "not a byte");
        }
    }
    if (strlen(w) % 2 != 0 || (*count != 0 && *count != n)) {
        wrong(r, "not as many bytes as before");
    }
    *count = n;
    return b;
}

/* A memory of a state: `=` at the end if as at the start. */
static const uint8_t *memory(reader *r, const uint8_t *start, size_t *count) {
    const char *w = word(r);
    return strcmp(w, "=") == 0 ? start : bytes(r, w, count);
}

/* A memory of an outcome: `=` before the bytes if the outside altered none, `-` where there is no such memory. */
static const uint8_t *afterwards(reader *r, size_t *count, int *kept) {
    const char *w = word(r);
    *kept = *w == '=' || *w == '-';
    return *w == '-' ? NULL : bytes(r, w + *kept, count);
}

/* ---- lines */

static void block(reader *r) {
    r->now->record = bytes(r, word(r), &r->now->bytes);
}

static void start(reader *r) {
    r->now->at_body = strcmp(word(r), "body") == 0;
}

static void regs(reader *r) {
    for (size_t i = 0; i < 16; i++) {
        r->of->regs[i] = number32(r);
    }
}

/* The limit stands at the start alone. */
static void cells(reader *r) {
    state *s = r->of;
    uint32_t *cell[7] = {&s->sp, &s->rets, &s->hold, &s->brk, &s->pc, &s->done, &s->limit};
    for (size_t i = 0; i < 7 && (i < 6 || s == &r->now->start); i++) {
        *cell[i] = number32(r);
    }
}

static void versions(reader *r) {
    numbers(r, r->of->versions, 2);
}

static void ram(reader *r) {
    r->of->ram = memory(r, r->now->start.ram, &r->now->ram_bytes);
    if (r->now->ram_bytes > MOST_MEMORY) {
        wrong(r, "more than there is room for");
    }
}

static void xip(reader *r) {
    r->now->xip = memory(r, NULL, &r->now->xip_bytes);
}

static void map(reader *r) {
    r->of->map = memory(r, r->now->start.map, &r->now->map_bytes);
}

static void places(reader *r) {
    numbers(r, r->now->places, PLACES);
}

/* The next of the run's entries, outcomes or requests. */
static void *next(const reader *r, void *first, size_t size, size_t *count, size_t most) {
    if (*count == most) {
        wrong(r, "more than there is room for");
    }
    return (char *)first + size * (*count)++;
}

static void table_entry(reader *r) {
    entry *e = next(r, r->now->entries, sizeof *e, &r->now->entry_count, MOST_ENTRIES);
    e->index = number32(r);
    e->guest = number32(r);
    e->body = number(r);
}

static void outcome_line(reader *r) {
    outcome *o = next(r, r->now->outcomes, sizeof *o, &r->now->outcome_count, MOST_OUTCOMES);
    o->answer = number32(r);
    o->brk = number32(r);
    o->ram = afterwards(r, &r->now->ram_bytes, &o->ram_kept);
    o->map = afterwards(r, &r->now->map_bytes, &o->map_kept);
    if (more(r)) {
        numbers(r, o->versions, 2);
    }
}

static void end(reader *r) {
    const char *w = word(r);
    r->of = &r->now->end;
    if (strcmp(w, "chain") == 0) {
        r->now->left = BY_CHAIN;
        r->now->site = number32(r);
    } else if (strcmp(w, "table") == 0) {
        r->now->left = BY_TABLE;
        r->now->body = number(r);
    } else {
        r->now->left = BY_RETURN;
    }
}

static request *asked(reader *r, ask kind) {
    request *q = next(r, r->now->requests, sizeof *q, &r->now->request_count, MOST_REQUESTS);
    q->kind = kind;
    q->address = number(r);
    return q;
}

static void read_request(reader *r) {
    request *q = asked(r, READS);
    q->width = number32(r);
    q->index = number32(r);
}

static void write_request(reader *r) {
    request *q = asked(r, WRITES);
    q->value = number32(r);
    q->width = number32(r);
    q->index = number32(r);
}

static void guard_request(reader *r) {
    asked(r, GUARDS);
}

/* Operations, which the done count tells too, and instructions. */
static void count(reader *r) {
    number32(r);
    r->now->instructions = number32(r);
}

static const struct line {
    const char *word;
    void (*read)(reader *);
} LINES[] = {
    {"block", block},
    {"start", start},
    {"regs", regs},
    {"cells", cells},
    {"versions", versions},
    {"ram", ram},
    {"xip", xip},
    {"map", map},
    {"places", places},
    {"entry", table_entry},
    {"outcome", outcome_line},
    {"end", end},
    {"read", read_request},
    {"write", write_request},
    {"guard", guard_request},
    {"count", count},
};

static void read_line(reader *r, const char *key) {
    for (size_t i = 0; i < sizeof LINES / sizeof *LINES; i++) {
        if (strcmp(key, LINES[i].word) == 0) {
            LINES[i].read(r);
            if (more(r)) {
                wrong(r, "more than is due");
            }
            return;
        }
    }
    wrong(r, "unknown word");
}

/* ---- files */

/* The run of that name, new where there is none. */
static run *named(const reader *r, runs *all, const char *name) {
    size_t i = 0;
    while (i < all->count && strcmp(all->run[i].name, name) != 0) {
        i++;
    }
    if (i == all->count && (i & (i - 1)) == 0) { /* room is doubled */
        all->run = realloc(all->run, (i == 0 ? 1 : 2 * i) * sizeof *all->run);
        if (all->run == NULL) {
            wrong(r, "no memory");
        }
    }
    all->count += i == all->count;
    all->run[i] = (run){.name = strcpy(room(r, strlen(name)), name)};
    return &all->run[i];
}

void read_runs(runs *all, const char *path) {
    reader r = {.path = path};
    FILE *file = fopen(path, "r");
    char *line = NULL, *key;
    size_t size = 0;
    if (file == NULL) {
        perror(path);
        exit(2);
    }
    while (getline(&line, &size, file) != -1) {
        r.line++;
        r.rest = line;
        key = word(&r);
        if (strcmp(key, ">") == 0) {
            r.now = named(&r, all, word(&r));
            r.of = &r.now->start;
        } else if (r.now == NULL) {
            wrong(&r, "a line before the first run");
        } else {
            read_line(&r, key);
        }
    }
    free(line);
    fclose(file);
}
