/* Evaluation of rules and images, section "How a rule runs". */
#ifndef PEER_RUN_H
#define PEER_RUN_H

#include <stddef.h>

#include "arena.h"
#include "term.h"

enum outcome { CAME_TO_VALUE, NO_VALUE, GAVE_UP };

struct counts {
    size_t values;  /* values taken whole */
    size_t calls;   /* in an image: applications */
    size_t lets;
    size_t matches;
    size_t built;   /* constructors, from unfinished parts, and operations */
};

/* Past these bounds a run gives up; so does one that spends its arena. */
struct bounds {
    size_t steps;
    size_t depth; /* of parts that come to values within one another */
};

struct run_result {
    enum outcome outcome;
    const struct term *value; /* a closed term, NULL without a value */
    struct counts counts;
};

struct run_result run_term(struct arena *arena, enum layout layout,
                           const struct term *closed, struct bounds bounds);

#endif
