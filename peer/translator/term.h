/* Terms of rules and images, as the paper's "Words of a rule" lays them out. */
#ifndef PEER_TERM_H
#define PEER_TERM_H

#include <stdbool.h>
#include <stddef.h>
#include <stdint.h>

#include "arena.h"
#include "words.h"

enum kind {
    KIND_VARIABLE = 1,
    KIND_FUNCTION = 2,
    KIND_RECURSIVE = 3,
    KIND_CALL = 4,
    KIND_LET = 5,
    KIND_CONSTRUCTOR = 6,
    KIND_MATCH = 7,
    KIND_ARM = 8,
    KIND_CONTINUATION = 9,
    KIND_NUMBER = 10,
    KIND_OPERATION = 11
};

/* The low bytes of an operation: "0 adds, 1 subtracts, [...] 2 asks". */
enum operation { OPERATION_ADD, OPERATION_SUBTRACT, OPERATION_LESS };

/* What less gives: "tag 1 if so, else tag 0, without arguments". */
enum { TAG_NOT_LESS = 0, TAG_LESS = 1 };

/* "Version 2 has numbers." A version is told in 16 bits. */
enum { VERSION_1 = 1, VERSION_2 = 2 };

enum layout { LAYOUT_RULE, LAYOUT_IMAGE };

/*
 * "Raise the limit from 8 to 15 for functions, calls, constructors and arms,
 * so images reach 16 arguments."
 */
enum {
    LOW_BYTE_BITS = 8,
    LOW_BYTE_MOST = 255,
    WORD_BITS = 16,
    NUMBER_WORDS = 2,
    OPERATION_PARTS = 2,
    ARGUMENTS_MOST = 15,
    IMAGE_ARGUMENTS_MOST = ARGUMENTS_MOST + 1,
    ARMS_MOST = 32
};

/*
 * "Source indices and continuation indices are counted separately, and no
 * place may take one for the other."
 */
struct source_index {
    uint8_t number;
};

struct continuation_index {
    uint8_t number;
};

/* How many variables of each numbering are bound at a place. */
struct scope {
    size_t source;
    size_t continuation;
};

struct term {
    /* The words that are its own: all but its parts'. */
    uint8_t kind;
    uint8_t low;
    uint16_t second; /* of a constructor or an arm, otherwise 0 */
    uint32_t number; /* of a number, otherwise 0 */
    /* What follows from these and from the parts. */
    bool atom;
    size_t part_count;
    const struct term **parts;
};

uint16_t head_word(enum kind kind, uint8_t low);
uint16_t source_word(struct source_index index);
uint16_t continuation_word(struct continuation_index index);
uint8_t word_kind(uint16_t word);
uint8_t word_low(uint16_t word);

/* "11 now means neither 1 nor 2" */
bool version_is_known(uint16_t version);

/* The questions a reader puts to the table of permitted kinds and ranges. */
bool kind_stands_as_term(enum layout layout, uint16_t version, uint8_t kind);
bool low_is_in_range(enum layout layout, uint8_t kind, uint8_t low);
bool kind_has_second_word(uint8_t kind);
bool kind_has_number(uint8_t kind);
bool second_is_in_range(uint16_t second);

/* A term of the model's own words, with room for as many parts as they name. */
struct term *term_with_parts(struct arena *arena, struct term model);

/* To be called once the parts are in. */
void settle_atom(struct term *term);

/* Variables bound where the given part of the term stands. */
struct scope scope_of_part(enum layout layout, const struct term *term,
                           size_t part, struct scope outside);

/* A head, and the second word or the number where there is one. */
void put_own_words(struct word_sink *sink, const struct term *term);

/* "A term is written head first, its parts after it in order." */
void put_term(struct word_sink *sink, const struct term *term);

#endif
