#include "gen_limits.h"

#include "../translator/rule.h"
#include "gen_record.h"

/* One level of nesting: words before the part and words after it. */
struct nest {
    struct word_list before;
    struct word_list after;
};

enum { WIDEST_RECURSIVE = KIND_RECURSIVE << LOW_BYTE_BITS | ARGUMENTS_MOST };

static const struct nest nests[] = {
    { WORD_LIST(0x0201), { NULL, 0 } },
    { WORD_LIST(WIDEST_RECURSIVE), { NULL, 0 } },
    { WORD_LIST(0x0401), WORD_LIST(0x0600, 0x0000) },
    { WORD_LIST(0x0402, 0x0600, 0x0000), WORD_LIST(0x0600, 0x0000) },
    { WORD_LIST(0x0401, 0x0600, 0x0000), { NULL, 0 } },
    { WORD_LIST(0x0500), WORD_LIST(0x0100) },
    { WORD_LIST(0x0500, 0x0600, 0x0000), { NULL, 0 } },
    { WORD_LIST(0x0603, 0x0001), { NULL, 0 } },
    { WORD_LIST(0x0603, 0x0002), WORD_LIST(0x0600, 0x0000) },
    { WORD_LIST(0x0603, 0x0002, 0x0401, 0x0201, 0x0100, 0x0600, 0x0000),
      { NULL, 0 } },
    { WORD_LIST(0x0701), WORD_LIST(0x0800, 0x0000, 0x0600, 0x0000) },
    { WORD_LIST(0x0701, 0x0600, 0x0000, 0x0800, 0x0000), { NULL, 0 } },
    { WORD_LIST(0x0701, 0x0600, 0x0000, 0x0800, ARGUMENTS_MOST), { NULL, 0 } },
    { WORD_LIST(0x0702, 0x0600, 0x0000, 0x0801, 0x0003, 0x0102, 0x0800,
                0x0000),
      { NULL, 0 } },
};

/* The leaf stands at the given depth. */
static void write_nest(struct outlet *out, const struct nest *nest,
                       size_t depth)
{
    struct record record;

    start_record(&record);
    put_repeated(&record.sink, nest->before, depth - 1);
    put_leaf(&record.sink);
    put_repeated(&record.sink, nest->after, depth - 1);
    end_record(&record, out);
}

static void write_nests(struct outlet *out)
{
    for (size_t i = 0; i < sizeof nests / sizeof nests[0]; i++) {
        write_nest(out, &nests[i], 2);
        write_nest(out, &nests[i], RULE_DEPTH_MOST - 1);
        write_nest(out, &nests[i], RULE_DEPTH_MOST);
        write_nest(out, &nests[i], RULE_DEPTH_MOST + 1);
    }
}

/*
 * Calls or constructors with as many arguments as there may be, each the first
 * part of the one before, or its last. The deepest parts, a call's, stand at
 * the given depth, so that no constructor is an atom.
 */
static void write_wide_nest(struct outlet *out, enum kind kind, bool last,
                            size_t depth)
{
    const struct word_list call = WORD_LIST(0x0401, 0x0100, 0x0100);
    const size_t levels_of_others = 3; /* a function, the call, its parts */
    size_t levels = depth - levels_of_others;
    size_t beside = kind == KIND_CALL ? ARGUMENTS_MOST : ARGUMENTS_MOST - 1;
    struct record record;

    start_record(&record);
    put_kind(&record.sink, KIND_FUNCTION, 1);
    for (size_t i = 0; i < levels; i++) {
        put_kind(&record.sink, kind, ARGUMENTS_MOST);
        if (kind == KIND_CONSTRUCTOR)
            put_word(&record.sink, ARGUMENTS_MOST);
        put_variables(&record.sink, last ? beside : 0);
    }
    put_words(&record.sink, call);
    put_variables(&record.sink, last ? 0 : levels * beside);
    end_record(&record, out);
}

static void write_wide_nests(struct outlet *out)
{
    static const enum kind kinds[] = { KIND_CALL, KIND_CONSTRUCTOR };

    for (size_t i = 0; i < sizeof kinds / sizeof kinds[0]; i++) {
        write_wide_nest(out, kinds[i], false, RULE_DEPTH_MOST);
        write_wide_nest(out, kinds[i], true, RULE_DEPTH_MOST);
        write_wide_nest(out, kinds[i], true, RULE_DEPTH_MOST + 1);
    }
}

/* A match of the last arm's tag, each arm with an arity of its own. */
static void write_arms(struct outlet *out, size_t arms)
{
    struct record record;

    start_record(&record);
    put_kind(&record.sink, KIND_MATCH, arms);
    put_two(&record.sink, KIND_CONSTRUCTOR, arms - 1, 0);
    for (size_t i = 0; i < arms; i++) {
        size_t arity = (arms - 1 - i) % (ARGUMENTS_MOST + 1);

        put_two(&record.sink, KIND_ARM, i, arity);
        put_two(&record.sink, KIND_CONSTRUCTOR, i, 0);
    }
    end_record(&record, out);
}

static void write_edge(struct outlet *out, struct word_list binder,
                       size_t index)
{
    struct record record;

    start_record(&record);
    put_words(&record.sink, binder);
    put_kind(&record.sink, KIND_VARIABLE, index);
    end_record(&record, out);
}

/* Index bound - 1 is accepted, index bound refused. */
static void write_edges(struct outlet *out, struct word_list binder,
                        size_t bound)
{
    if (bound > 0)
        write_edge(out, binder, bound - 1);
    write_edge(out, binder, bound);
    write_edge(out, binder, LOW_BYTE_MOST);
}

static void write_edges_of_one_binder(struct outlet *out)
{
    const struct word_list let = WORD_LIST(0x0500, 0x0600, 0x0000);
    const struct word_list bound_term = WORD_LIST(0x0500);
    const struct word_list subject = WORD_LIST(0x0201, 0x0701);

    for (size_t count = 1; count <= ARGUMENTS_MOST + 1; count++) {
        uint16_t function = head_word(KIND_FUNCTION, (uint8_t)count);
        uint16_t recursive = head_word(KIND_RECURSIVE, (uint8_t)count);

        write_edges(out, (struct word_list){ &function, 1 }, count);
        write_edges(out, (struct word_list){ &recursive, 1 }, count + 1);
    }
    for (uint16_t arity = 0; arity <= ARGUMENTS_MOST + 1; arity++) {
        const uint16_t words[] = { 0x0701, 0x0600, 0x0000, 0x0800, arity };
        const size_t count = sizeof words / sizeof words[0];

        write_edges(out, (struct word_list){ words, count }, arity);
    }
    write_edges(out, let, 1);
    write_edges(out, bound_term, 0);
    write_edges(out, subject, 1);
}

static void write_edges_of_many_binders(struct outlet *out)
{
    const struct word_list all_kinds =
        WORD_LIST(0x0203, 0x0302, 0x0500, 0x0600, 0x0000, 0x0701, 0x0600,
                  0x0000, 0x0801, 0x0004);
    const size_t all_kinds_bound = 3 + 3 + 1 + 4;
    /* What the first arm binds, the second does not see. */
    const struct word_list second_arm =
        WORD_LIST(0x0201, 0x0702, 0x0100, 0x0800, 0x0005, 0x0105, 0x0801,
                  0x0002);
    const size_t second_arm_bound = 1 + 2;
    /* What a let binds in one argument, the next does not see. */
    const struct word_list after_let =
        WORD_LIST(0x0201, 0x0602, 0x0002, 0x0500, 0x0100, 0x0101);
    const size_t after_let_bound = 1;

    write_edges(out, all_kinds, all_kinds_bound);
    write_edges(out, second_arm, second_arm_bound);
    write_edges(out, after_let, after_let_bound);
}

/* Index 255 where so many variables are bound, by the fewest functions. */
static void write_highest_index(struct outlet *out, enum kind kind,
                                size_t bound)
{
    size_t bound_by_one = ARGUMENTS_MOST + (kind == KIND_RECURSIVE);
    struct record record;

    start_record(&record);
    for (; bound >= bound_by_one; bound -= bound_by_one)
        put_kind(&record.sink, kind, ARGUMENTS_MOST);
    if (bound > 0)
        put_kind(&record.sink, KIND_FUNCTION, bound);
    put_kind(&record.sink, KIND_VARIABLE, LOW_BYTE_MOST);
    end_record(&record, out);
}

/* It needs 256. */
static void write_highest_indices(struct outlet *out)
{
    static const enum kind kinds[] = { KIND_FUNCTION, KIND_RECURSIVE };

    for (size_t i = 0; i < sizeof kinds / sizeof kinds[0]; i++) {
        write_highest_index(out, kinds[i], LOW_BYTE_MOST + 1);
        write_highest_index(out, kinds[i], LOW_BYTE_MOST);
    }
}

static void write_filler(struct outlet *out, size_t words)
{
    struct record record;

    start_record(&record);
    put_filler(&record.sink, words);
    end_record(&record, out);
}

/* A tree of that many calls as wide as can be, variables at its leaves. */
static void put_call_tree(struct word_sink *sink, size_t calls)
{
    if (calls == 0) {
        put_variables(sink, 1);
        return;
    }
    put_kind(sink, KIND_CALL, ARGUMENTS_MOST);
    calls--;
    for (size_t parts = ARGUMENTS_MOST + 1; parts > 0; parts--) {
        size_t share = calls / parts;

        put_call_tree(sink, share);
        calls -= share;
    }
}

/* Calls of variables come nearest to seven words for one. */
static void write_long_image(struct outlet *out, size_t calls, size_t functions)
{
    const struct word_list function = WORD_LIST(0x0201);
    struct record record;

    start_record(&record);
    put_repeated(&record.sink, function, functions);
    put_call_tree(&record.sink, calls);
    end_record(&record, out);
}

/* As many calls as a rule holds, then functions up to its last word. */
static void write_longest_images(struct outlet *out)
{
    const size_t call_words = ARGUMENTS_MOST + 1;
    const size_t few_calls = 20;
    size_t calls = (RULE_WORDS_MOST - 2) / call_words;
    size_t functions = RULE_WORDS_MOST - 1 - calls * call_words;

    write_long_image(out, 1, 1);
    write_long_image(out, few_calls, 1);
    write_long_image(out, calls, functions);
    write_long_image(out, calls, functions + 1);
}

void write_limits(struct outlet *out)
{
    const size_t long_filler = 1000;
    const size_t short_fillers = 12;

    write_nests(out);
    write_wide_nests(out);
    write_arms(out, 1);
    write_arms(out, ARMS_MOST);
    write_arms(out, ARMS_MOST + 1);
    write_edges_of_one_binder(out);
    write_edges_of_many_binders(out);
    write_highest_indices(out);
    for (size_t words = FILLER_WORDS_LEAST; words < short_fillers; words++)
        write_filler(out, words);
    write_filler(out, long_filler);
    write_filler(out, RULE_WORDS_MOST);
    write_longest_images(out);
}
