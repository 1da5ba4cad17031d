#include "gen_arguments.h"

#include "gen_record.h"

void put_call_of(struct word_sink *sink, size_t arguments,
                 struct function function)
{
    put_kind(sink, KIND_CALL, arguments);
    put_kind(sink, function.kind, function.arguments);
    put_kind(sink, KIND_VARIABLE, function.index);
    put_places(sink, arguments);
}

void put_match_of(struct word_sink *sink, size_t arguments, size_t arity,
                  size_t index)
{
    put_kind(sink, KIND_MATCH, 1);
    put_two(sink, KIND_CONSTRUCTOR, LOW_BYTE_MOST, arguments);
    put_places(sink, arguments);
    put_two(sink, KIND_ARM, LOW_BYTE_MOST, arity);
    put_kind(sink, KIND_VARIABLE, index);
}

static void write_call(struct outlet *out, size_t arguments,
                       struct function function)
{
    struct record record;

    start_record(&record);
    put_call_of(&record.sink, arguments, function);
    end_record(&record, out);
}

/* Every variable that is bound, a recursive function's own name too. */
static void write_calls(struct outlet *out, enum kind kind, size_t arguments)
{
    size_t bound = arguments + (kind == KIND_RECURSIVE);

    for (size_t index = 0; index < bound; index++)
        write_call(out, arguments, (struct function){ kind, arguments, index });
}

/* A function with one argument more than the call has, and with one less. */
static void write_misfits(struct outlet *out, enum kind kind, size_t arguments)
{
    write_call(out, arguments, (struct function){ kind, arguments + 1, 0 });
    if (arguments > 1)
        write_call(out, arguments, (struct function){ kind, arguments - 1, 0 });
}

/* Atoms, or with one argument unfinished at the given place. */
static void write_constructor(struct outlet *out, size_t arguments,
                              size_t unfinished)
{
    const struct word_list call =
        WORD_LIST(0x0401, 0x0201, 0x0100, 0x0609, 0x0000);
    struct record record;

    start_record(&record);
    put_two(&record.sink, KIND_CONSTRUCTOR, LOW_BYTE_MOST, arguments);
    for (size_t i = 0; i < arguments; i++) {
        if (i == unfinished)
            put_words(&record.sink, call);
        else
            put_two(&record.sink, KIND_CONSTRUCTOR, i, 0);
    }
    end_record(&record, out);
}

static void write_match(struct outlet *out, size_t arguments, size_t index)
{
    struct record record;

    start_record(&record);
    put_match_of(&record.sink, arguments, arguments, index);
    end_record(&record, out);
}

void write_arguments(struct outlet *out)
{
    for (size_t count = 1; count <= ARGUMENTS_MOST + 1; count++) {
        write_calls(out, KIND_FUNCTION, count);
        write_calls(out, KIND_RECURSIVE, count);
        write_misfits(out, KIND_FUNCTION, count);
        write_misfits(out, KIND_RECURSIVE, count);
        for (size_t unfinished = 0; unfinished <= count; unfinished++)
            write_constructor(out, count, unfinished);
        for (size_t index = 0; index <= count; index++)
            write_match(out, count, index);
    }
}
