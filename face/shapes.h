/* Rules of a given size or depth, each made of one form as far as it can be: what cost is measured on. */
#ifndef FACE_SHAPES_H
#define FACE_SHAPES_H

#include <stddef.h>
#include <stdint.h>

#include "../peer/translator/words.h"

struct shape {
    const char *name;
    uint16_t version;
    void (*put)(struct word_sink *sink, size_t words);
};

enum { GROWN_SHAPES = 8, DEEP_SHAPES = 7 };

/* Rules of exactly so many words, from 64 on. Sizes that are eight times each other are made alike. */
extern const struct shape grown_shapes[GROWN_SHAPES];

/* Rules with a term at depth 64, of at most so many words: each level holds its next in its last part. */
extern const struct shape deep_shapes[DEEP_SHAPES];

#endif
