/*
 * An endless row of random rules for each seed. A rule follows from the seed
 * and its number alone, so that it can be made again without those before it.
 */
#ifndef PEER_FUZZ_H
#define PEER_FUZZ_H

#include <stddef.h>
#include <stdint.h>
#include <stdio.h>

#include "gen_record.h"

struct stretch {
    uint32_t seed;
    size_t first; /* the number of the first rule, counted from 0 */
    size_t count;
    size_t bytes; /* no record is begun that would end beyond them */
};

struct random_rule {
    uint16_t version;
    struct record record;
};

/* One rule, whose record is started afresh. */
void put_rule(struct random_rule *rule, uint32_t seed, size_t number);

/* Writes records; the result is how many. */
size_t write_stretch(FILE *out, struct stretch stretch);

#endif
