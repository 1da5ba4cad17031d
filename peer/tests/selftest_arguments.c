#include "selftest_arguments.h"

#include "../generators/gen_arguments.h"
#include "../generators/gen_record.h"
#include "../translator/image.h"
#include "demand3.h"

/* "Raise the limit from 8 to 15": its number, so that the name is tested. */
enum { LIMIT = 15 };

/* 5 at the last word, or else one is missing after it. */
static bool last_is_in_range(struct word_list before, uint16_t last,
                             bool in_range)
{
    const struct refusal missing = { REFUSED_WORD_MISSING, before.count + 1 };
    const struct refusal range = { REFUSED_RANGE, before.count };
    struct record record;

    start_record(&record);
    put_words(&record.sink, before);
    put_word(&record.sink, last);
    return is_refusal(check_rule(VERSION_1, sink_words(&record.sink)),
                      in_range ? missing : range);
}

static void try_heads(struct tally *tally, enum kind kind, const char *claim)
{
    const struct word_list before = { NULL, 0 };
    bool holds = true;

    for (size_t low = 0; low <= LOW_BYTE_MOST; low++)
        holds = holds && last_is_in_range(before,
                                          head_word(kind, (uint8_t)low),
                                          low >= 1 && low <= LIMIT);
    expect(tally, holds, "arguments", claim);
}

/* The rule is whole at a constructor's 0. */
static void try_seconds(struct tally *tally, struct word_list before,
                        size_t least, const char *claim)
{
    bool holds = true;

    for (size_t second = least; second <= UINT16_MAX; second++)
        holds = holds && last_is_in_range(before, (uint16_t)second,
                                          second <= LIMIT);
    expect(tally, holds, "arguments", claim);
}

/* 7 at the last word, a variable, exactly if its index is not below. */
static bool binds(struct word_list before, size_t bound)
{
    const struct refusal nothing = { REFUSED_NOTHING, 0 };
    const struct refusal unbound = { REFUSED_UNBOUND, before.count };
    bool holds = true;

    for (size_t index = 0; index <= LOW_BYTE_MOST; index++) {
        struct record record;

        start_record(&record);
        put_words(&record.sink, before);
        put_kind(&record.sink, KIND_VARIABLE, index);
        struct refusal found =
            check_rule(VERSION_1, sink_words(&record.sink));
        holds = holds && is_refusal(found, index < bound ? nothing : unbound);
    }
    return holds;
}

static void try_bound(struct tally *tally)
{
    bool holds = true;

    for (uint16_t count = 1; count <= LIMIT; count++) {
        const uint16_t function = head_word(KIND_FUNCTION, (uint8_t)count);
        const uint16_t recursive = head_word(KIND_RECURSIVE, (uint8_t)count);
        const struct word_list arm =
            WORD_LIST(0x0701, 0x0600, 0x0000, 0x0800, count);

        holds = holds && binds((struct word_list){ &function, 1 }, count) &&
                binds((struct word_list){ &recursive, 1 }, count + 1u) &&
                binds(arm, count);
    }
    expect(tally, holds, "arguments", "each count binds as many variables");
}

/* The value, or none at all on both sides if that is a list of no words. */
static bool comes_to(const struct record *record, struct word_list value)
{
    struct arena arena = arena_for_runs();
    struct both_runs runs =
        run_both(&arena, VERSION_1, sink_words(&record->sink));
    enum agreement agreement = demand3_agreement(&arena, &runs);
    bool holds = runs.refusal.number == REFUSED_NOTHING;

    if (value.count == 0)
        holds = holds && agreement == WITHOUT_VALUE;
    else
        holds = holds && agreement == AGREED &&
                words_are_equal(value_words(&arena, runs.of_rule.value),
                                value);
    arena_release(&arena);
    return holds;
}

/* The first argument comes back where the counts are equal. */
static bool fits_if_equal(size_t given, size_t wanted)
{
    const struct word_list first = WORD_LIST(0x0600, 0x0000);
    const struct word_list nothing = { NULL, 0 };
    const struct word_list value = given == wanted ? first : nothing;
    const size_t index = wanted - 1;
    struct record calls[2];
    struct record match;

    start_record(&calls[0]);
    put_call_of(&calls[0].sink, given,
                (struct function){ KIND_FUNCTION, wanted, index });
    start_record(&calls[1]);
    put_call_of(&calls[1].sink, given,
                (struct function){ KIND_RECURSIVE, wanted, index });
    start_record(&match);
    put_match_of(&match.sink, given, wanted, index);
    return comes_to(&calls[0], value) && comes_to(&calls[1], value) &&
           comes_to(&match, value);
}

/* A recursive function's name stands outside its arguments. */
static bool gives_itself_back(size_t arguments)
{
    const struct word_list itself =
        WORD_LIST(head_word(KIND_RECURSIVE, (uint8_t)arguments),
                  head_word(KIND_VARIABLE, (uint8_t)arguments));
    struct record record;

    start_record(&record);
    put_call_of(&record.sink, arguments,
                (struct function){ KIND_RECURSIVE, arguments, arguments });
    return comes_to(&record, itself);
}

static void try_runs(struct tally *tally)
{
    bool fit = true;
    bool named = true;

    for (size_t given = 1; given <= LIMIT; given++) {
        for (size_t wanted = 1; wanted <= LIMIT; wanted++)
            fit = fit && fits_if_equal(given, wanted);
        named = named && gives_itself_back(given);
    }
    expect(tally, fit, "arguments", "every two counts fit if equal");
    expect(tally, named, "arguments", "a recursive function's own name");
}

void try_arguments(struct tally *tally)
{
    const struct word_list constructor = WORD_LIST(0x0600);
    const struct word_list arm = WORD_LIST(0x0701, 0x0600, 0x0000, 0x0800);

    try_heads(tally, KIND_FUNCTION, "1 to 15 for functions");
    try_heads(tally, KIND_RECURSIVE, "1 to 15 for recursive functions");
    try_heads(tally, KIND_CALL, "1 to 15 for calls");
    try_seconds(tally, constructor, 1, "up to 15 for constructors");
    try_seconds(tally, arm, 0, "0 to 15 for arms");
    try_bound(tally);
    try_runs(tally);
}
