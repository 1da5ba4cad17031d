/* Levels of all kinds laid one inside the other, with an ending of choice. */
#ifndef PEER_FUZZ_LEVELS_H
#define PEER_FUZZ_LEVELS_H

#include "maker.h"

/* Where a term stands and what is asked of it. */
struct place {
    size_t type; /* heeded by fitting terms only */
    size_t depth;
};

struct levels {
    bool fitting;           /* calls and matches find what they need */
    bool last;              /* the inner level is always the last part */
    size_t beside_most;     /* the target of a part beside the inner level */
    size_t words;           /* what a long rule's ending fills up to */
    void (*put_ending)(struct maker *, const struct levels *, struct place);
};

void put_levels(struct maker *maker, const struct levels *levels,
                struct place place, size_t count);

/* A small term of the levels' own sort. */
void put_beside(struct maker *maker, const struct levels *levels,
                struct place place);

#endif
