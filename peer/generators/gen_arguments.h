/* Forms of each number of arguments, up to one more than there may be. */
#ifndef PEER_GEN_ARGUMENTS_H
#define PEER_GEN_ARGUMENTS_H

#include <stddef.h>

#include "../translator/term.h"
#include "../translator/words.h"
#include "gen_record.h"

/* A function that gives the variable of that index back. */
struct function {
    enum kind kind;
    size_t arguments;
    size_t index;
};

/* A call with so many arguments, each with its place for a tag. */
void put_call_of(struct word_sink *sink, size_t arguments,
                 struct function function);

/* A match of a constructor of these, its arm giving the variable back. */
void put_match_of(struct word_sink *sink, size_t arguments, size_t arity,
                  size_t index);

void write_arguments(struct outlet *out);

#endif
