#include "gen_record.h"

struct outlet outlet_for_some(FILE *file, uint16_t version, size_t words_most,
                              size_t step)
{
    return (struct outlet){ .file = file,
                            .version = version,
                            .words_most = words_most,
                            .step = step };
}

struct outlet outlet_for_all(FILE *file, uint16_t version)
{
    return outlet_for_some(file, version, SIZE_MAX, 1);
}

void write_rule(struct outlet *out, struct word_list rule)
{
    if (rule.count > out->words_most)
        return;
    if (out->offered++ % out->step == 0)
        write_record(out->file, out->version, rule);
}

void start_record(struct record *record)
{
    record->sink = sink_into(record->words, RECORD_WORDS_MOST);
}

void end_record(struct record *record, struct outlet *out)
{
    write_rule(out, sink_words(&record->sink));
}

void put_kind(struct word_sink *sink, enum kind kind, size_t low)
{
    put_word(sink, head_word(kind, (uint8_t)low));
}

void put_two(struct word_sink *sink, enum kind kind, size_t low, size_t second)
{
    put_kind(sink, kind, low);
    put_word(sink, (uint16_t)second);
}

void put_repeated(struct word_sink *sink, struct word_list list, size_t times)
{
    for (size_t i = 0; i < times; i++)
        put_words(sink, list);
}

void put_leaf(struct word_sink *sink)
{
    put_two(sink, KIND_CONSTRUCTOR, 0, 0);
}

void put_places(struct word_sink *sink, size_t count)
{
    for (size_t i = 0; i < count; i++)
        put_two(sink, KIND_CONSTRUCTOR, i, 0);
}

void put_variables(struct word_sink *sink, size_t count)
{
    for (; count > 0; count--)
        put_kind(sink, KIND_VARIABLE, 0);
}

/* A constructor whose arguments share the remaining words evenly. */
static void put_filler_constructor(struct word_sink *sink, size_t words)
{
    const size_t own_words = 2;
    size_t left = words - own_words;
    size_t arguments = left / FILLER_WORDS_LEAST;

    if (arguments > ARGUMENTS_MOST)
        arguments = ARGUMENTS_MOST;
    put_two(sink, KIND_CONSTRUCTOR, words % LOW_BYTE_MOST, arguments);
    for (; arguments > 0; arguments--) {
        size_t share = left / arguments;

        put_filler(sink, share);
        left -= share;
    }
}

void put_filler(struct word_sink *sink, size_t words)
{
    if (words == FILLER_WORDS_LEAST) {
        put_leaf(sink);
    } else if (words == FILLER_WORDS_LEAST + 1) {
        put_kind(sink, KIND_FUNCTION, 1);
        put_leaf(sink);
    } else {
        put_filler_constructor(sink, words);
    }
}
