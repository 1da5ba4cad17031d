/* What every maker of random terms shares: the draws and the scope. */
#ifndef PEER_MAKER_H
#define PEER_MAKER_H

#include <stdbool.h>
#include <stddef.h>
#include <stdint.h>

#include "../translator/rule.h"
#include "../translator/term.h"
#include "../translator/words.h"

enum {
    TARGET_LEAST = 4, /* below it only a leaf is written */
    LEAF_DEPTH = RULE_DEPTH_MOST - 1,
    DEEPEST_LEVEL = RULE_DEPTH_MOST + 8, /* of terms past the bound */
    /* One argument too many and the function's name for itself. */
    BOUND_BY_ONE_MOST = ARGUMENTS_MOST + 2,
    VARIABLES_MOST = DEEPEST_LEVEL * BOUND_BY_ONE_MOST
};

/* Tags 0 to 2 carry as many arguments as they say. */
enum { FITTING_TAGS = 3 };

/* Counts that are not large. */
enum { SMALL_COUNT_MOST = 3 };

/*
 * A variable's type: data, a number, or a function of that many data to data.
 * No term is asked for one of a foreign type.
 */
enum { DATA = 0, NUMERIC = LOW_BYTE_MOST, FOREIGN = LOW_BYTE_MOST - 1 };

struct maker {
    struct word_sink *sink;
    uint32_t state;
    size_t leaf_depth; /* from there on a leaf is written */
    size_t edge_odds;  /* one free leaf in so many is at the edge; 0: none */
    size_t dead_odds;  /* one arm in so many is dead; 0: none */
    size_t number_odds; /* one choice in so many is for numbers; 0: none */
    size_t bound;
    uint8_t types[VARIABLES_MOST];
};

/* Where a term stands: the words it should take and its depth. */
struct spot {
    size_t target;
    size_t depth;
};

/* Of what has that number in a seed's row; it follows from these two alone. */
uint32_t state_of(uint32_t seed, size_t number);

/* The state must not be 0, or every draw is. */
struct maker maker_into(struct word_sink *sink, uint32_t state);

uint32_t next_random(struct maker *maker);

/* From 0 to count - 1. */
size_t below(struct maker *maker, size_t count);

size_t from_to(struct maker *maker, size_t least, size_t most);
bool one_in(struct maker *maker, size_t count);

/* Never without number odds, and then nothing is drawn. */
bool chooses_number(struct maker *maker);

/* Most are small, from 1 on; a large one is at most the number given. */
size_t some_count(struct maker *maker, size_t large_odds, size_t most);

/* The spot, which is no leaf's, sets how large a count can be. */
size_t count_for_spot(struct maker *maker, size_t most, struct spot spot);

struct spot part_of(struct spot spot, size_t parts);
bool is_leaf_spot(const struct maker *maker, struct spot spot);

void bind_variables(struct maker *maker, size_t type, size_t times);

/* How many of the bound variables a low byte can name. */
size_t nameable(const struct maker *maker);

#endif
