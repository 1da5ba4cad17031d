/* The wide term at the end of a wide rule's levels. */
#ifndef PEER_FUZZ_WIDE_H
#define PEER_FUZZ_WIDE_H

#include "fuzz_levels.h"

void put_wide_term(struct maker *maker, const struct levels *levels,
                   struct place place);

#endif
