/* The second version: numbers, operations, and what a version is told for. */
#ifndef PEER_SELFTEST_NUMBERS_H
#define PEER_SELFTEST_NUMBERS_H

#include "tally.h"

void try_numbers(struct tally *tally);

#endif
