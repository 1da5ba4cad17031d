/* The paper's worked rules, and those of the requests that followed it. */
#ifndef PEER_CASES_H
#define PEER_CASES_H

#include <stddef.h>

#include "../translator/file.h"
#include "../translator/rule.h"
#include "../translator/words.h"

struct accepted_case {
    const char *name;
    struct word_list rule;
    size_t image_count;
    struct word_list value;
    size_t applications;
};

struct refused_case {
    const char *name;
    struct word_list rule;
    struct refusal refusal;
};

/* A rule whose image is given word by word. */
struct image_case {
    const char *name;
    struct word_list rule;
    struct word_list image;
};

enum {
    ACCEPTED_CASES = 18,
    REFUSED_CASES = 11,
    IMAGE_CASES = 2,
    PLACE_CASES = 24,
    DEAD_CASES = 22
};

/* Case O: words 0201 before 0600 0000. */
enum { O_REFUSED_FUNCTIONS = 64, O_ACCEPTED_FUNCTIONS = 63 };

/* Case N: the outputs lent for case A. */
enum { N_SHORT_OUTPUT = 7, N_LONG_ENOUGH_OUTPUT = 8 };

/*
 * A to G, then matches on two forms of one tag, also one inside the other, and
 * forms of fifteen arguments.
 */
extern const struct accepted_case accepted_cases[ACCEPTED_CASES];
/* H to M, then forms of sixteen arguments. */
extern const struct refused_case refused_cases[REFUSED_CASES];
/* Rules refused at one of their parts, where another place lies near. */
extern const struct refused_case place_cases[PLACE_CASES];
/* Rules with dead arms, and those where another fault stands before one. */
extern const struct refused_case dead_cases[DEAD_CASES];

/* Functions and calls that have sixteen arguments in the image. */
extern const struct image_case image_cases[IMAGE_CASES];

extern const struct word_list case_b_image;
extern const struct byte_list case_b_file;

void put_case_o(struct word_sink *sink, size_t functions);

#endif
