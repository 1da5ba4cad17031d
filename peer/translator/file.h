/* The two file forms: packing words into bytes and unpacking them. */
#ifndef PEER_FILE_H
#define PEER_FILE_H

#include <stddef.h>
#include <stdint.h>

#include "image.h"
#include "words.h"

enum file_form { FORM_RULE, FORM_IMAGE };

enum { FILE_HEADER_BYTES = 7, BYTES_OF_A_WORD = 2 };

struct byte_list {
    const uint8_t *bytes;
    size_t count;
};

/* The reply's count is that of the bytes written. */
struct reply pack_file(enum file_form form, uint16_t version,
                       struct word_list words, uint8_t *output,
                       size_t capacity);

/* "Files carry the version; unpacking reports it." */
struct unpacking {
    struct reply reply; /* its count is that of the words given */
    uint16_t version;   /* 0 when refused */
};

/* Terms are not read, so their kinds may be of the other version. */
struct unpacking unpack_file(enum file_form form, struct byte_list file,
                             uint16_t *output, size_t capacity);

#endif
