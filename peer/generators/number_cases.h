/* Worked rules of the second version: numbers and operations. */
#ifndef PEER_NUMBER_CASES_H
#define PEER_NUMBER_CASES_H

#include "../translator/words.h"
#include "cases.h"

/* The words of a number, and some that stand at an edge. */
#define NUMBER(high, low) 0x0A00, high, low
#define NOUGHT_NUMBER NUMBER(0x0000, 0x0000)
#define ONE_NUMBER NUMBER(0x0000, 0x0001)
#define HIGHEST_NUMBER NUMBER(0xFFFF, 0xFFFF)
#define HALF_NUMBER NUMBER(0x8000, 0x0000)
#define BELOW_HALF_NUMBER NUMBER(0x7FFF, 0xFFFF)

/* Heads of operations on two parts. */
#define ADD 0x0B00
#define SUBTRACT 0x0B01
#define LESS 0x0B02

struct stuck_case {
    const char *name;
    struct word_list rule;
};

enum {
    NUMBER_ACCEPTED = 39,
    NUMBER_REFUSED = 39,
    NUMBER_REFUSED_IN_FIRST = 10,
    NUMBER_STUCK = 20,
    NUMBER_ENDLESS = 3,
    NUMBER_IMAGES = 5,
    UNKNOWN_VERSIONS = 9
};

/* All but those of the first version are of the second. */
extern const struct accepted_case number_accepted[NUMBER_ACCEPTED];
extern const struct refused_case number_refused[NUMBER_REFUSED];
extern const struct refused_case
    number_refused_in_first[NUMBER_REFUSED_IN_FIRST];

/* Without a value: operations on what is no number, numbers out of place. */
extern const struct stuck_case number_stuck[NUMBER_STUCK];
/* An operation that cannot be, but for a part that never ends. */
extern const struct stuck_case number_endless[NUMBER_ENDLESS];

extern const struct image_case number_images[NUMBER_IMAGES];

extern const uint16_t unknown_versions[UNKNOWN_VERSIONS];

#endif
