/* Numbers and operations inside random terms. */
#ifndef PEER_GEN_NUMERIC_H
#define PEER_GEN_NUMERIC_H

#include "maker.h"

/* Often one at an edge, often a small one. */
void put_some_number(struct maker *maker);

/* A sum or a difference of two fitting numbers. */
void put_numeric_operation(struct maker *maker, struct spot spot);

/*
 * A fitting term of the type, in which numbers are compared, given to a
 * function, or counted in a loop. The spot is no leaf's.
 */
void put_numeric_form(struct maker *maker, size_t type, struct spot spot);

#endif
