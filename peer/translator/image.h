/* The image of a rule, word by word. */
#ifndef PEER_IMAGE_H
#define PEER_IMAGE_H

#include <stddef.h>
#include <stdint.h>

#include "rule.h"
#include "term.h"
#include "words.h"

struct reply {
    struct refusal refusal;
    size_t count; /* 0 when refused */
};

void put_carried_form(struct word_sink *sink, const struct term *atom);
void put_passing_form(struct word_sink *sink, const struct term *term);
void put_image(struct word_sink *sink, const struct term *rule);

/* "every call on words is told" the version. */
struct refusal check_rule(uint16_t version, struct word_list rule);
struct reply measure_image(uint16_t version, struct word_list rule);

/* A refusal leaves the output unchanged, success every word past the image. */
struct reply write_image(uint16_t version, struct word_list rule,
                         uint16_t *output, size_t capacity);

#endif
