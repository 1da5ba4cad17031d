/* Tables of 16-bit words: where they go and how they are printed. */
#ifndef PEER_WORDS_H
#define PEER_WORDS_H

#include <stdbool.h>
#include <stddef.h>
#include <stdint.h>
#include <stdio.h>

struct word_list {
    const uint16_t *words;
    size_t count;
};

#define WORD_COUNT(...) \
    (sizeof((const uint16_t[]){ __VA_ARGS__ }) / sizeof(uint16_t))
#define WORD_LIST(...) \
    { (const uint16_t[]){ __VA_ARGS__ }, WORD_COUNT(__VA_ARGS__) }

/*
 * Words are put at the front of lent room. Words beyond the room are counted
 * and not kept; a sink that measures has no room and never overflows.
 */
struct word_sink {
    uint16_t *words;
    size_t capacity;
    size_t count;
};

struct word_sink sink_into(uint16_t *words, size_t capacity);
struct word_sink sink_that_measures(void);

void put_word(struct word_sink *sink, uint16_t word);
void put_words(struct word_sink *sink, struct word_list list);
bool sink_has_overflowed(const struct word_sink *sink);
struct word_list sink_words(const struct word_sink *sink);

bool words_are_equal(struct word_list left, struct word_list right);

/* "in upper case, eight to a line, the last line perhaps shorter" */
void print_words(FILE *out, struct word_list list);

#endif
