/* This translator's replies to a corpus. */
#ifndef PEER_REPLIES_H
#define PEER_REPLIES_H

#include <stdio.h>

/* One reply for each record; the result is the exit status. */
int translate_corpus(FILE *in, FILE *out);

#endif
