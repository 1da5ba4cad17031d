/* The limit on arguments, for every count and by its own number. */
#ifndef PEER_SELFTEST_ARGUMENTS_H
#define PEER_SELFTEST_ARGUMENTS_H

#include "tally.h"

void try_arguments(struct tally *tally);

#endif
