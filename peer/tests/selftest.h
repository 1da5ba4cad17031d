/* The paper's worked rules, places and the file forms, tried one by one. */
#ifndef PEER_SELFTEST_H
#define PEER_SELFTEST_H

#include <stdio.h>

/* The result is the exit status. */
int run_selftest(FILE *out);

#endif
