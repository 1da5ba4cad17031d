/* Rules with numbers and operations, and rules of every version. */
#ifndef PEER_GEN_NUMBERS_H
#define PEER_GEN_NUMBERS_H

#include <stddef.h>
#include <stdint.h>
#include <stdio.h>

#include "../translator/words.h"

/* Where numbers differ in their words, or would in a sign or a carry. */
enum { EDGE_NUMBERS = 8 };

extern const uint32_t edge_numbers[EDGE_NUMBERS];

/* A number's three words. */
void put_number(struct word_sink *sink, uint32_t number);

/*
 * A function of one argument whose body is sums of it and nothing else, in so
 * many words, an even number from 2 on. Its image has the most words that an
 * image can have: one less than seven times as many.
 */
void put_sums(struct word_sink *sink, size_t words);

void write_numbers(FILE *file);

#endif
