/* What holds of a translator's replies, and of the words lent to it. */
#ifndef PEER_TALLY_H
#define PEER_TALLY_H

#include <stdbool.h>
#include <stddef.h>
#include <stdint.h>
#include <stdio.h>

#include "../translator/rule.h"
#include "../translator/words.h"

enum { LENT_WORDS = 512, LENT_BYTES = 64 };

struct tally {
    FILE *out;
    size_t passed;
    size_t failed;
};

/* Counts a claim; one that does not hold is printed. */
void expect(struct tally *tally, bool holds, const char *name,
            const char *claim);

bool is_refusal(struct refusal found, struct refusal expected);

/* "All other refusals carry place 0." */
bool is_placeless(struct refusal found, enum refusal_number number);

/* LENT_WORDS words with a mark that no translator writes. */
void lend_words(uint16_t *words);
bool untouched_from(const uint16_t *words, size_t first);

/* The checking, the measuring and the writing call. */
bool every_call_refuses(uint16_t version, struct word_list rule,
                        struct refusal refusal);

#endif
