/* Dead arms beyond the worked ones: among many, of every tag, at depth. */
#ifndef PEER_SELFTEST_DEAD_H
#define PEER_SELFTEST_DEAD_H

#include "tally.h"

void try_dead_arms(struct tally *tally);

#endif
