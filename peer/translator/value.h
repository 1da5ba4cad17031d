/* Values, and the environments that hold what was put in for variables. */
#ifndef PEER_VALUE_H
#define PEER_VALUE_H

#include "arena.h"
#include "term.h"

struct binding;

/* One list for each numbering, innermost first. */
struct environment {
    const struct binding *source;
    const struct binding *continuation;
};

/*
 * A function with what was put in for its free variables, a constructor with
 * its arguments, or a number: "A closed atom is a value."
 */
struct value {
    const struct term *term;
    struct environment environment; /* of a function */
    const struct value **arguments; /* of a constructor */
};

struct binding {
    const struct value *value;
    const struct binding *outer;
};

const struct binding *bind_value(struct arena *arena,
                                 const struct value *value,
                                 const struct binding *outer);

const struct value *constructor_value(struct arena *arena,
                                      const struct term *constructor,
                                      const struct value **arguments);

const struct value *number_value(struct arena *arena, uint32_t number);

/* The value an atom is once its variables are put in. */
const struct value *value_of_atom(struct arena *arena, const struct term *atom,
                                  struct environment environment);

/*
 * The value as a closed term: "All values put in for variables are closed, so
 * nothing is lifted." NULL if the term would be too deep or too large.
 */
const struct term *term_of_value(struct arena *arena, enum layout layout,
                                 const struct value *value);

#endif
