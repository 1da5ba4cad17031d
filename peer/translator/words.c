#include "words.h"

#include <string.h>

enum { WORDS_ON_A_LINE = 8 };

struct word_sink sink_into(uint16_t *words, size_t capacity)
{
    return (struct word_sink){ words, capacity, 0 };
}

struct word_sink sink_that_measures(void)
{
    return sink_into(NULL, SIZE_MAX);
}

void put_word(struct word_sink *sink, uint16_t word)
{
    if (sink->words != NULL && sink->count < sink->capacity)
        sink->words[sink->count] = word;
    sink->count++;
}

void put_words(struct word_sink *sink, struct word_list list)
{
    for (size_t i = 0; i < list.count; i++)
        put_word(sink, list.words[i]);
}

bool sink_has_overflowed(const struct word_sink *sink)
{
    return sink->count > sink->capacity;
}

struct word_list sink_words(const struct word_sink *sink)
{
    size_t kept = sink_has_overflowed(sink) ? sink->capacity : sink->count;

    return (struct word_list){ sink->words, kept };
}

bool words_are_equal(struct word_list left, struct word_list right)
{
    if (left.count != right.count)
        return false;
    if (left.count == 0)
        return true;
    return memcmp(left.words, right.words,
                  left.count * sizeof left.words[0]) == 0;
}

void print_words(FILE *out, struct word_list list)
{
    for (size_t i = 0; i < list.count; i++) {
        bool ends_line =
            i % WORDS_ON_A_LINE == WORDS_ON_A_LINE - 1 || i + 1 == list.count;

        fprintf(out, "%04X%c", (unsigned)list.words[i], ends_line ? '\n' : ' ');
    }
}
