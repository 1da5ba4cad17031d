/*
 * Demand 3: a rule's value in its carried form is what the rule's image comes
 * to, and the image's counts follow from the rule's. The other half, of the
 * requests that followed: where the image comes to a value, so does the rule.
 */
#ifndef PEER_DEMAND3_H
#define PEER_DEMAND3_H

#include <stdio.h>

#include "../translator/arena.h"
#include "../translator/rule.h"
#include "../translator/run.h"
#include "../translator/words.h"

struct both_runs {
    struct refusal refusal; /* of the rule; when refused nothing was run */
    struct word_list image;
    struct run_result of_rule;
    struct run_result of_image;
};

enum agreement {
    AGREED,        /* the rule came to a value, and all of demand 3 holds */
    WITHOUT_VALUE, /* the rule has none, nor has the image */
    UNDECIDED,     /* a run or the printing of a value gave up */
    DISAGREED
};

/* An arena with the memory that both runs of one rule may spend. */
struct arena arena_for_runs(void);

struct both_runs run_both(struct arena *arena, uint16_t version,
                          struct word_list rule);

enum agreement demand3_agreement(struct arena *arena,
                                 const struct both_runs *runs);

/* The paper: an image's length "is at most 7w". */
bool image_is_short_enough(struct word_list rule, struct word_list image);

/* The words of a value, laid out as its term is; none if there are too many. */
struct word_list value_words(struct arena *arena, const struct term *value);

/* Goes through a corpus; the result is the exit status. */
int demand3_over_corpus(FILE *in, FILE *out);

#endif
