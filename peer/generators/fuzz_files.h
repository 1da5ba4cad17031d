/*
 * An endless row of random files for each seed, well formed and damaged, of
 * both versions. A file follows from the seed and its number alone. Those of
 * even numbers were made as rules, those of odd numbers as images.
 */
#ifndef PEER_FUZZ_FILES_H
#define PEER_FUZZ_FILES_H

#include <stddef.h>
#include <stdint.h>

#include "../translator/file.h"
#include "../translator/words.h"

enum {
    /* Some more than a file's count can say. */
    MADE_WORDS_MOST = UINT16_MAX + 3,
    FILE_HARMS_MOST = 3,
    APPENDED_BYTES_MOST = 4,
    MADE_BYTES_MOST = FILE_HEADER_BYTES + BYTES_OF_A_WORD * MADE_WORDS_MOST +
                      FILE_HARMS_MOST * APPENDED_BYTES_MOST
};

struct made_file {
    enum file_form form;
    uint16_t version; /* 1 or 2, before any damage */
    struct word_sink sink; /* the words it was made of, before any damage */
    uint16_t words[MADE_WORDS_MOST];
    size_t count;
    uint8_t bytes[MADE_BYTES_MOST];
};

void make_file(struct made_file *file, uint32_t seed, size_t number);

#endif
