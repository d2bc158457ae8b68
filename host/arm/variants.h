/* Runs that are made of a run, with ends that follow from its own. */
#ifndef VARIANTS_H
#define VARIANTS_H

#include "scene.h"

/* Why a run has no such variant. */
#define REASONS(X)                                                                       \
    X(PLAYED, "")                                                                        \
    X(UNBOUNDED, "no operation, so that each limit from the done count on holds it")     \
    X(BROKEN, "the break word is set, so that the other block leaves by the return")     \
    X(ABOVE_LIMIT, "the done count is above the limit, so that no block enters another") \
    X(TOO_MANY, "done plus operations, and those of the other block, would reach 2^32")  \
    X(TABLED, "the table's entry for the block is the run's own")                        \
    X(NO_BYTE, "no table byte leads to the block")                                       \
    X(UNCHAINED, "it leaves otherwise than by a chain site")                             \
    X(NO_START, "no block can start at the site's target")

#define REASON_NAME(name, text) name,
typedef enum { REASONS(REASON_NAME) REASON_COUNT } reason;
#undef REASON_NAME

typedef reason variant(scene *s);

variant as_written; /* the run itself */
variant limited;    /* with a limit that is one too low: nothing is done */
variant entered;    /* entered from another block by a table jump, with one operation done there */
variant onward;     /* over its chain site, linked, into another block, which the limit just holds */
variant held_up;    /* the same with a limit that is one too low for the other block */

/* A block linked with itself, with this limit: it ends by its count or by the limit. */
scene loop_scene(uint32_t limit);

/* Operations of the loop before its count ends it. */
enum { LOOP_DONE = 200000 };

#endif
