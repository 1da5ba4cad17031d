/* The file forms, tried one by one. */
#ifndef PEER_SELFTEST_FILES_H
#define PEER_SELFTEST_FILES_H

#include "tally.h"

void try_files(struct tally *tally);

#endif
