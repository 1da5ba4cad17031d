#include "corpus.h"

#include <stdlib.h>

enum { BYTE_BITS = 8, BYTE_MOST = 255 };

struct corpus {
    FILE *in;
    bool cut_short;
    uint16_t version;
    size_t count;
    uint16_t words[UINT16_MAX];
};

struct corpus *open_corpus(FILE *in)
{
    struct corpus *corpus = malloc(sizeof *corpus);

    if (corpus == NULL) {
        fputs("peer: out of memory\n", stderr);
        exit(EXIT_FAILURE);
    }
    corpus->in = in;
    corpus->cut_short = false;
    corpus->version = 0;
    corpus->count = 0;
    return corpus;
}

/* False at the end of the stream; half a number is a record cut short. */
static bool read_number(struct corpus *corpus, uint16_t *number)
{
    int low = getc(corpus->in);
    int high = low == EOF ? EOF : getc(corpus->in);

    if (high == EOF) {
        corpus->cut_short = low != EOF;
        return false;
    }
    *number = (uint16_t)(low | high << BYTE_BITS);
    return true;
}

/* A number that a record begun has to have. */
static bool read_further(struct corpus *corpus, uint16_t *number)
{
    if (!read_number(corpus, number))
        corpus->cut_short = true;
    return !corpus->cut_short;
}

bool next_record(struct corpus *corpus)
{
    uint16_t count;

    if (!read_number(corpus, &corpus->version) ||
        !read_further(corpus, &count))
        return false;
    corpus->count = count;
    for (size_t i = 0; i < corpus->count; i++)
        if (!read_further(corpus, &corpus->words[i]))
            return false;
    return true;
}

uint16_t record_version(const struct corpus *corpus)
{
    return corpus->version;
}

struct word_list record_words(const struct corpus *corpus)
{
    return (struct word_list){ corpus->words, corpus->count };
}

bool close_corpus(struct corpus *corpus)
{
    bool whole = !corpus->cut_short && !ferror(corpus->in);

    if (!whole)
        fputs("peer: the last record is cut short\n", stderr);
    free(corpus);
    return whole;
}

static void write_number(FILE *out, size_t number)
{
    putc((int)(number & BYTE_MOST), out);
    putc((int)(number >> BYTE_BITS & BYTE_MOST), out);
}

void write_record(FILE *out, uint16_t version, struct word_list words)
{
    write_number(out, version);
    write_number(out, words.count);
    for (size_t i = 0; i < words.count; i++)
        write_number(out, words.words[i]);
}
