/* Reading the words of a rule, and of an image, into a term. */
#ifndef PEER_RULE_H
#define PEER_RULE_H

#include <stddef.h>
#include <stdio.h>

#include "arena.h"
#include "term.h"
#include "words.h"

/* The paper's numbers, section "Checks in order", and the request's 18. */
enum refusal_number {
    REFUSED_NOTHING = 0,
    REFUSED_NO_WORDS = 1,
    REFUSED_TOO_MANY_WORDS = 2,
    REFUSED_WORD_MISSING = 3,
    REFUSED_KIND = 4,
    REFUSED_RANGE = 5,
    REFUSED_DEPTH = 6,
    REFUSED_UNBOUND = 7,
    REFUSED_WORDS_LEFT = 8,
    REFUSED_OUTPUT_SHORT = 9,
    REFUSED_MARK = 10,
    REFUSED_VERSION = 11,
    REFUSED_FILE_LENGTH = 12,
    REFUSED_DEAD_ARM = 18
};

enum {
    RULE_WORDS_MOST = 4096,
    IMAGE_WORDS_MOST = 28672,
    RULE_DEPTH_MOST = 64
};

/*
 * "Refusals 3 to 8 shall carry the place of the word tested, counted from 0; 3
 * carries the number of words given. All other refusals carry place 0." Of
 * those that came later, 18 has "its place" too.
 */
struct refusal {
    enum refusal_number number;
    size_t place;
};

/* "The bench program prints the place after the number." */
void print_refusal(FILE *out, struct refusal refusal);

struct reading {
    struct refusal refusal;
    const struct term *term; /* NULL when refused */
};

struct reading read_rule(struct arena *arena, uint16_t version,
                         struct word_list words);

/*
 * The paper does not read images; the evaluator does. The same tests are made
 * with the image's ranges and both numberings, and a depth that no image of a
 * rule reaches.
 */
struct reading read_image(struct arena *arena, uint16_t version,
                          struct word_list words);

#endif
