/* A fixed corpus of rules, accepted and refused. */
#ifndef PEER_GEN_H
#define PEER_GEN_H

#include <stdio.h>

/* The result is the exit status. */
int generate_corpus(FILE *out);

#endif
