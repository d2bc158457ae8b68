/* Runs blocks on an Arm processor, as document 01 says, and compares how they end.
 *
 *     run written RUNS..          each run as it is written
 *     run limit RUNS..            each with a limit that is one too low
 *     run jump RUNS..             each entered from another block by a table jump
 *     run link RUNS..             each that leaves by a chain site, the site linked with another block's body
 *     run loop                    a block linked with itself
 *     run count RUNS..            where each starts, how many instructions it is to execute and how many words it has; then it is run so
 *     run stack RUNS..            how much stack the library's functions take, of the runs' records
 *     run flip COUNT SEED RUNS..  a bit flipped in words that are run: of four at least three must end otherwise, trap, or not end
 *
 * RUNS are the files of tests/oracle/runs, in order. variants.h says what is made of a run, scene.c what is compared. Each end is seen in
 * three placings of the regions (regions.h), in two where the kernel has no memory at the runs' addresses. Prints counts, and a line for
 * each difference; the exit status is 0 where there is none.
 */
#include <inttypes.h>
#include <stdio.h>
#include <stdlib.h>
#include <string.h>
#include <sys/wait.h>
#include <unistd.h>

#include "variants.h"

static const struct mode {
    const char *name;
    variant *variant[2];
} MODES[] = {{"written", {as_written, NULL}}, {"limit", {limited, NULL}}, {"jump", {entered, NULL}}, {"link", {onward, held_up}}};

enum { MODE_COUNT = sizeof MODES / sizeof *MODES };

/* ---- every run */

typedef struct counts {
    unsigned long runs, at_body, left[3], requests, ends, different, without[REASON_COUNT];
} counts;

static void play_placings(counts *c, scene *s, placing first) {
    c->runs++;
    c->at_body += s->run.at_body != 0;
    c->left[s->run.left]++;
    c->requests += s->run.request_count;
    for (s->placing = first; s->placing < PLACINGS; s->placing++) {
        c->ends++;
        c->different += play(s) != AS_DUE;
    }
}

/* The exit status: no end is no success. */
static int told(const counts *c) {
#define REASON_TEXT(name, text) text,
    static const char *const WHY[] = {REASONS(REASON_TEXT)};
#undef REASON_TEXT
    printf("runs %lu, from the first word %lu, from the body %lu\n", c->runs, c->runs - c->at_body, c->at_body);
    for (size_t i = PLAYED + 1; i < REASON_COUNT; i++) {
        if (c->without[i] != 0) {
            printf("left out %lu: %s\n", c->without[i], WHY[i]);
        }
    }
    printf("left by the return %lu, a chain site %lu, a table jump %lu\n", c->left[BY_RETURN], c->left[BY_CHAIN], c->left[BY_TABLE]);
    printf("requests %lu\nends %lu\ndifferent %lu\n", c->requests, c->ends, c->different);
    return c->different != 0 || c->ends == 0;
}

static int play_mode(const struct mode *mode, const runs *all) {
    placing first = reachable(all->run[0].places[STACK_PLACE]) ? WRITTEN : AT_END;
    counts c = {0};
    for (size_t i = 0; i < all->count; i++) {
        for (size_t k = 0; k < 2 && mode->variant[k] != NULL; k++) {
            scene s = scene_of(&all->run[i]);
            reason why = mode->variant[k](&s);
            c.without[why]++;
            if (why == PLAYED) {
                play_placings(&c, &s, first);
            }
        }
    }
    return told(&c);
}

/* Of the loop no places are written. */
static int loop(void) {
    static const uint32_t limit[] = {UINT32_MAX, LOOP_DONE, LOOP_DONE - 1, 1001, 1000, 2, 1};
    counts c = {0};
    for (size_t i = 0; i < sizeof limit / sizeof *limit; i++) {
        scene s = loop_scene(limit[i]);
        play_placings(&c, &s, AT_END);
    }
    return told(&c);
}

/* ---- instructions */

/* At the address that the run writes, so that a trace of the processor can be held beside it: an instruction cannot be seen from here. */
static int count(const runs *all) {
    int different = 0;
    for (size_t i = 0; i < all->count; i++) {
        scene s = scene_of(&all->run[i]);
        region code;
        werfund_answer a = translated(&code, &s.block, AT_END, 0);
        release(&code);
        printf("%016" PRIx64 " %u %u\n", s.run.places[CODE_PLACE] + (s.run.at_body ? a.body : 0), s.run.instructions, (unsigned)a.words);
        different |= play(&s) != AS_DUE;
    }
    return different;
}

/* ---- the stack of a call */

static int stacks(const runs *all) {
    static uint64_t table[WERFUND_TABLE], answer[WERFUND_ANSWER];
    static uint32_t words[28166];
    size_t translate = 0, needed = 0, link = 0;
#define ADDRESS(p) (uint64_t)(uintptr_t)(p)
    for (size_t i = 0; i < all->count; i++) {
        const uint64_t record[2] = {ADDRESS(all->run[i].record), all->run[i].bytes};
        translate = depth(translate, ADDRESS(werfund_translate), 7,
                          (uint64_t[]){record[0], record[1], ADDRESS(words), 28166, ADDRESS(table), ADDRESS(answer), WERFUND_ANSWER});
        needed = depth(needed, ADDRESS(werfund_words_needed), 5,
                       (uint64_t[]){record[0], record[1], ADDRESS(table), ADDRESS(answer), WERFUND_NEED});
        link = depth(link, ADDRESS(werfund_link), 2, (uint64_t[]){4 * i, 0});
    }
#undef ADDRESS
    printf("bytes of stack: werfund_translate %zu, werfund_words_needed %zu, werfund_link %zu\n", translate, needed, link);
    return translate == 0;
}

/* ---- flipped bits */

/* A run and its variants, each with the same word altered, until one does not end as it should. */
static result play_variants(const scene *s) {
    result r = AS_DUE;
    for (size_t i = 0; i < MODE_COUNT; i++) {
        for (size_t k = 0; k < 2 && r == AS_DUE && MODES[i].variant[k] != NULL; k++) {
            scene other = *s;
            r = MODES[i].variant[k](&other) == PLAYED ? play(&other) : AS_DUE;
        }
    }
    return r;
}

/* In a process of its own: altered words may do anything. */
static result apart(result how(const scene *), const scene *s) {
    int status;
    pid_t child = fork();
    if (child == 0) {
        _exit(how(s));
    }
    if (child == -1 || waitpid(child, &status, 0) != child) {
        perror("fork");
        exit(2);
    }
    return WIFEXITED(status) && WEXITSTATUS(status) < RESULTS ? (result)WEXITSTATUS(status) : TRAPPED;
}

/* A word of a run, both drawn. It is run if the run traps with 0 in its place, which Arm never executes. */
static int draw(const runs *all, scene *s) {
    region code;
    *s = scene_of(&all->run[junk() % all->count]);
    s->word = (uint32_t)(junk() % translated(&code, &s->block, AT_END, 0).words);
    release(&code);
    s->placing = AT_END;
    s->quiet = s->altered = 1;
    return apart(play, s) == TRAPPED;
}

static int flip(const runs *all, unsigned long count, uint64_t from) {
    unsigned long drawn = 0, seen[RESULTS] = {0};
    seed(from);
    for (unsigned long i = 0; i < count; i++) {
        scene s;
        do {
            drawn++;
        } while (!draw(all, &s));
        s.keep = UINT32_MAX;
        s.flip = 1u << junk() % 32;
        seen[apart(play_variants, &s)]++;
    }
    printf("words drawn %lu, run %lu\n", drawn, count);
    printf("with a bit flipped end otherwise %lu, trap %lu, do not end %lu, end as written %lu\n", seen[OTHERWISE], seen[TRAPPED],
           seen[UNENDING], seen[AS_DUE]);
    return 4 * seen[AS_DUE] > count || count == 0;
}

/* ---- */

static int usage(void) {
    fprintf(stderr, "run written|limit|jump|link|count|stack RUNS.. | run loop | run flip COUNT SEED RUNS..\n");
    return 2;
}

int main(int argc, char **argv) {
    const char *name = argc > 1 ? argv[1] : "";
    int flips = strcmp(name, "flip") == 0;
    runs all = {0};
    for (int i = flips ? 4 : 2; i < argc; i++) {
        read_runs(&all, argv[i]);
    }
    watch();
    if (strcmp(name, "loop") == 0) {
        return loop();
    }
    if (strcmp(name, "count") == 0 && all.count != 0) {
        return count(&all);
    }
    if (strcmp(name, "stack") == 0 && all.count != 0) {
        return stacks(&all);
    }
    if (flips && all.count != 0) {
        return flip(&all, strtoul(argv[2], NULL, 10), strtoull(argv[3], NULL, 10));
    }
    for (size_t i = 0; i < MODE_COUNT && all.count != 0; i++) {
        if (strcmp(name, MODES[i].name) == 0) {
            return play_mode(&MODES[i], &all);
        }
    }
    return usage();
}
