/*
 * A corpus: one record after another to the end of the stream, each a version
 * in 16 bits, a count of words in 16 bits and then the words, all low byte
 * first.
 */
#ifndef PEER_CORPUS_H
#define PEER_CORPUS_H

#include <stdbool.h>
#include <stdio.h>

#include "../translator/words.h"

/* Of a record, before its words: the version and the count. */
enum { RECORD_HEADER_WORDS = 2 };

struct corpus;

struct corpus *open_corpus(FILE *in);

/* False at the end of the stream and at a record that is cut short. */
bool next_record(struct corpus *corpus);

/* The record last read; it stands until the next one is read. */
uint16_t record_version(const struct corpus *corpus);
struct word_list record_words(const struct corpus *corpus);

/* False if the stream did not end where a record ends. */
bool close_corpus(struct corpus *corpus);

void write_record(FILE *out, uint16_t version, struct word_list words);

#endif
