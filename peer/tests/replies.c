#include "replies.h"

#include <stdlib.h>

#include "../generators/corpus.h"
#include "../translator/image.h"

enum { SHOWN_IMAGE_MOST = 64 };

/* The checksum's modulus, the largest prime below 65,536, and its halves. */
enum { CHECKSUM_MODULUS = 65521, CHECKSUM_HALF_BITS = 16 };

/* Two sums that stay below the modulus, as in Adler-32 but over words. */
static uint32_t checksum(struct word_list list)
{
    uint32_t sum = 1;
    uint32_t sum_of_sums = 0;

    for (size_t i = 0; i < list.count; i++) {
        sum = (sum + list.words[i]) % CHECKSUM_MODULUS;
        sum_of_sums = (sum_of_sums + sum) % CHECKSUM_MODULUS;
    }
    return sum_of_sums << CHECKSUM_HALF_BITS | sum;
}

static void translate_record(const struct corpus *corpus, uint16_t *image,
                             FILE *out)
{
    struct reply reply =
        write_image(record_version(corpus), record_words(corpus), image,
                    IMAGE_WORDS_MOST);
    struct word_list words = { image, reply.count };

    if (reply.refusal.number != REFUSED_NOTHING) {
        print_refusal(out, reply.refusal);
        return;
    }
    fprintf(out, "ok %zu %08lX\n", words.count,
            (unsigned long)checksum(words));
    if (words.count <= SHOWN_IMAGE_MOST)
        print_words(out, words);
}

int translate_corpus(FILE *in, FILE *out)
{
    uint16_t image[IMAGE_WORDS_MOST];
    struct corpus *corpus = open_corpus(in);

    while (next_record(corpus))
        translate_record(corpus, image, out);
    return close_corpus(corpus) ? EXIT_SUCCESS : EXIT_FAILURE;
}
