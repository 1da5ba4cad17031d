/* Images that are written out here, word by word, and not taken from the second translator. */
#ifndef FACE_WRITTEN_OUT_H
#define FACE_WRITTEN_OUT_H

#include "../peer/generators/cases.h"

/* Rules of version 2 with their images, written out by the paper's chain. */
static const struct image_case written_out[] = {
    { "a number, written out", WORD_LIST(0x0A00, 0x1234, 0x5678),
      WORD_LIST(0x0401, 0x0201, 0x0401, 0x0900, 0x0A00, 0x1234, 0x5678, 0x0201, 0x0900) },
    { "an addition, written out", WORD_LIST(0x0B00, 0x0A00, 0x0000, 0x0002, 0x0A00, 0xFFFF, 0xFFFE),
      WORD_LIST(0x0401,                                         /* the image calls */
                0x0201, 0x0401,                                 /* of the chain, before its first term */
                0x0201, 0x0401, 0x0900, 0x0A00, 0x0000, 0x0002, /* that number's passing form */
                0x0201, 0x0401,                                 /* before its second term */
                0x0201, 0x0401, 0x0900, 0x0A00, 0xFFFF, 0xFFFE, /* that number's passing form */
                0x0201, 0x0401, 0x0902, 0x0B00, 0x0901, 0x0900, /* the ending: k_2 applied to the sum of k_1 and k_0 */
                0x0201, 0x0900) },
    { "what is less, written out", WORD_LIST(0x0201, 0x0B02, 0x0100, 0x0A00, 0x0A00, 0x0B00),
      WORD_LIST(0x0401, 0x0201, 0x0401, 0x0900,                 /* the image calls, with a function, */
                0x0202, 0x0401,                                 /* which has one argument more and calls */
                0x0201, 0x0401, 0x0201, 0x0401, 0x0900, 0x0100, /* a chain: a variable, */
                0x0201, 0x0401,                                 /* and a number, */
                0x0201, 0x0401, 0x0900, 0x0A00, 0x0A00, 0x0B00, /* whose words are like heads; */
                0x0201, 0x0401, 0x0902, 0x0B02, 0x0901, 0x0900, /* the ending */
                0x0900, 0x0201, 0x0900) },
};

enum { WRITTEN_OUT = sizeof written_out / sizeof written_out[0] };

#endif
