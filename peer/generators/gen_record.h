/* Putting together one record of the generated corpus. */
#ifndef PEER_GEN_RECORD_H
#define PEER_GEN_RECORD_H

#include <stddef.h>
#include <stdint.h>
#include <stdio.h>

#include "../translator/term.h"
#include "../translator/words.h"
#include "corpus.h"

enum { RECORD_WORDS_MOST = 5000, FILLER_WORDS_LEAST = 2 };

struct record {
    struct word_sink sink;
    uint16_t words[RECORD_WORDS_MOST];
};

/* Where generated rules go: which of them, and what version they are told. */
struct outlet {
    FILE *file;
    uint16_t version;
    size_t words_most; /* longer rules are left out */
    size_t step;       /* of the others, one in so many is written */
    size_t offered;    /* of the others, so far */
};

struct outlet outlet_for_all(FILE *file, uint16_t version);
struct outlet outlet_for_some(FILE *file, uint16_t version, size_t words_most,
                              size_t step);

void write_rule(struct outlet *out, struct word_list rule);

void start_record(struct record *record);
void end_record(struct record *record, struct outlet *out);

/* A head of any kind, right or wrong. */
void put_kind(struct word_sink *sink, enum kind kind, size_t low);

/* A constructor's or an arm's two words. */
void put_two(struct word_sink *sink, enum kind kind, size_t low, size_t second);

void put_repeated(struct word_sink *sink, struct word_list list, size_t times);

/* A closed term that is accepted and has exactly that many words. */
void put_filler(struct word_sink *sink, size_t words);

/* 0600 0000, the shortest filler. */
void put_leaf(struct word_sink *sink);

/* Constructors without arguments that have their places for tags. */
void put_places(struct word_sink *sink, size_t count);

/* So many times x_0. */
void put_variables(struct word_sink *sink, size_t count);

#endif
