/* Two translators' replies to one corpus, held against each other. */
#ifndef PEER_COMPARE_H
#define PEER_COMPARE_H

#include <stdio.h>

/*
 * The replies stand in two files, both as translate_corpus writes them. Tells
 * of the first difference, with the words of the rule; the result is the exit
 * status, a failure when there is one.
 */
int compare_replies(FILE *in, const char *replies, const char *other_replies,
                    FILE *out);

#endif
