#include "shapes.h"

#include "../peer/generators/gen_numbers.h"
#include "../peer/generators/gen_record.h"
#include "../peer/translator/rule.h"
#include "../peer/translator/term.h"

/* The identity, called with a constructor: no closed call that comes to a value is shorter. */
static const uint16_t call_words[] = { 0x0401, 0x0201, 0x0100, 0x0600, 0x0000 };

enum {
    CALL_WORDS = sizeof call_words / sizeof call_words[0],
    /* the words of the shortest closed term */
    LEAF = FILLER_WORDS_LEAST,
    /* of a call or a match: as many as one size measured is times the next smaller, so that each level shares alike */
    PARTS = 8,
    /* the words of the shortest let: its head and two leaves */
    LET_LEAST = 1 + 2 * LEAF,
    /* the words of a number, and of the shortest operation on two */
    NUMBER_LEAF = 1 + NUMBER_WORDS,
    OPERATION_LEAST = 1 + OPERATION_PARTS * NUMBER_LEAF,
    OPERATIONS = OPERATION_LESS + 1,
    /* half of the depth, so that there is depth left for the lets around the functions, seven at 4,096 words */
    TOWER_MOST = RULE_DEPTH_MOST / 2,
    /* all levels of the deepest rule but two, its outermost function and its innermost leaf */
    LEVELS = RULE_DEPTH_MOST - 2,
    /* the most levels that a filler has: of up to 4,096 words, and of a share of them by the levels around it */
    VALUE_LEVELS = 5,
    SHARE_LEVELS = 4
};

/* So many words in parts, as even as can be. */
static void put_even(struct word_sink *sink, void (*put)(struct word_sink *, size_t), size_t words, size_t parts)
{
    for (; parts > 0; parts--) {
        size_t share = words / parts;

        put(sink, share);
        words -= share;
    }
}

/* Calls of seven arguments; a part that is too small for another is a value. */
static void put_calls(struct word_sink *sink, size_t words)
{
    if (words < 1 + PARTS * LEAF) {
        put_filler(sink, words);
        return;
    }
    put_kind(sink, KIND_CALL, PARTS - 1);
    put_even(sink, put_calls, words - 1, PARTS);
}

static void put_lets(struct word_sink *sink, size_t words)
{
    if (words < LET_LEAST) {
        put_filler(sink, words);
        return;
    }
    put_kind(sink, KIND_LET, 0);
    put_even(sink, put_lets, words - 1, 2);
}

/* A match of so many arms, whose two words are its own, the other words shared by its subject and their bodies. */
static void put_match(struct word_sink *sink, void (*put)(struct word_sink *, size_t), size_t words, size_t arms)
{
    size_t share;

    words -= 1 + 2 * arms;
    share = words / (arms + 1);
    put_kind(sink, KIND_MATCH, arms);
    put(sink, share);
    for (; arms > 0; arms--) {
        words -= share;
        share = words / arms;
        put_two(sink, KIND_ARM, arms, 0);
        put(sink, share);
    }
}

/* Matches of seven arms. */
static void put_matches(struct word_sink *sink, size_t words)
{
    if (words < 1 + 2 * (PARTS - 1) + PARTS * LEAF) {
        put_filler(sink, words);
        return;
    }
    put_match(sink, put_matches, words, PARTS - 1);
}

/* Matches of as many arms as there are words for, some 31, side by side in lets. */
static void put_wide_matches(struct word_sink *sink, size_t words)
{
    if (words > 1 + LEAF + ARMS_MOST * (2 + LEAF)) {
        put_kind(sink, KIND_LET, 0);
        put_even(sink, put_wide_matches, words - 1, 2);
        return;
    }
    put_match(sink, put_filler, words, (words - 1 - LEAF) / (2 + LEAF));
}

/* Functions within functions, at most 32 words high, side by side in lets. */
static void put_functions(struct word_sink *sink, size_t words)
{
    if (words > TOWER_MOST) {
        put_kind(sink, KIND_LET, 0);
        put_even(sink, put_functions, words - 1, 2);
        return;
    }
    for (; words > 1; words--)
        put_kind(sink, KIND_FUNCTION, 1);
    put_kind(sink, KIND_VARIABLE, 0);
}

static void put_call(struct word_sink *sink)
{
    put_words(sink, (struct word_list){ call_words, CALL_WORDS });
}

/*
 * Constructors that are no atoms, each with a value before the next one; the innermost holds a call. Whether each of
 * them is an atom is seen only at its end. As many levels as there are words for, up to the depth's limit.
 */
static void put_constructors(struct word_sink *sink, size_t words)
{
    size_t levels = (words - CALL_WORDS) / (2 * LEAF);

    if (levels > RULE_DEPTH_MOST - SHARE_LEVELS)
        levels = RULE_DEPTH_MOST - SHARE_LEVELS;
    for (words -= CALL_WORDS; levels > 0; levels--) {
        size_t share = words / levels;

        put_two(sink, KIND_CONSTRUCTOR, levels, 2);
        put_filler(sink, share - 2);
        words -= share;
    }
    put_call(sink);
}

/*
 * The same with all values in the innermost, so that each of the others stands around all of them. Their levels are of
 * those that the deepest rules have for their form, less the values'.
 */
static void put_surrounding(struct word_sink *sink, size_t words)
{
    size_t levels = (words - CALL_WORDS) / (2 * LEAF);

    if (levels > LEVELS - VALUE_LEVELS)
        levels = LEVELS - VALUE_LEVELS;
    for (words -= CALL_WORDS; levels > 1; levels--) {
        put_two(sink, KIND_CONSTRUCTOR, levels, 1);
        words -= 2;
    }
    put_two(sink, KIND_CONSTRUCTOR, levels, 2);
    put_filler(sink, words - 2);
    put_call(sink);
}

/* A number within functions, so that there are so many words. */
static void put_held_number(struct word_sink *sink, size_t words)
{
    for (; words > NUMBER_LEAF; words--)
        put_kind(sink, KIND_FUNCTION, 1);
    put_number(sink, (uint32_t)sink->count);
}

/* Operations of all three sorts, in turn by their words; a part that is too small for another is a number. */
static void put_operations(struct word_sink *sink, size_t words)
{
    if (words < OPERATION_LEAST) {
        put_held_number(sink, words);
        return;
    }
    put_kind(sink, KIND_OPERATION, sink->count % OPERATIONS);
    put_even(sink, put_operations, words - 1, OPERATION_PARTS);
}

const struct shape grown_shapes[GROWN_SHAPES] = {
    { "calls", VERSION_1, put_calls },
    { "lets", VERSION_1, put_lets },
    { "matches", VERSION_1, put_matches },
    { "wide matches", VERSION_1, put_wide_matches },
    { "functions", VERSION_1, put_functions },
    { "nested constructors", VERSION_1, put_constructors },
    { "surrounding constructors", VERSION_1, put_surrounding },
    { "operations", VERSION_2, put_operations },
};

/* One argument of the outermost function, for leaves of one word. */
static void put_opening(struct word_sink *sink)
{
    put_kind(sink, KIND_FUNCTION, 1);
}

static void put_deep_functions(struct word_sink *sink, size_t most)
{
    (void)most;
    for (size_t i = 0; i <= LEVELS; i++)
        put_kind(sink, KIND_FUNCTION, 1);
    put_variables(sink, 1);
}

static void put_deep_lets(struct word_sink *sink, size_t most)
{
    (void)most;
    put_opening(sink);
    for (size_t i = 0; i < LEVELS; i++) {
        put_kind(sink, KIND_LET, 0);
        put_variables(sink, 1);
    }
    put_variables(sink, 1);
}

/* Calls of as many arguments as a call may have, the next in the last one. */
static void put_deep_calls(struct word_sink *sink, size_t most)
{
    (void)most;
    put_opening(sink);
    for (size_t i = 0; i < LEVELS; i++) {
        put_kind(sink, KIND_CALL, ARGUMENTS_MOST);
        put_variables(sink, ARGUMENTS_MOST);
    }
    put_variables(sink, 1);
}

/* Constructors of as many, atoms all. */
static void put_deep_atoms(struct word_sink *sink, size_t most)
{
    (void)most;
    put_opening(sink);
    for (size_t i = 0; i < LEVELS; i++) {
        put_two(sink, KIND_CONSTRUCTOR, 0, ARGUMENTS_MOST);
        put_variables(sink, ARGUMENTS_MOST - 1);
    }
    put_variables(sink, 1);
}

/* The same around a call, so that none is an atom. */
static void put_deep_constructors(struct word_sink *sink, size_t most)
{
    (void)most;
    put_opening(sink);
    for (size_t i = 0; i < LEVELS - 1; i++) {
        put_two(sink, KIND_CONSTRUCTOR, 0, ARGUMENTS_MOST);
        put_variables(sink, ARGUMENTS_MOST - 1);
    }
    put_kind(sink, KIND_CALL, 1);
    put_variables(sink, 2);
}

/* Matches with as many arms as the words allow, the next in the last arm. An arm of a variable has three words. */
static void put_deep_matches(struct word_sink *sink, size_t most)
{
    size_t arms = ((most - 2) / LEVELS - 1) / 3;

    if (arms > ARMS_MOST)
        arms = ARMS_MOST;
    put_opening(sink);
    for (size_t i = 0; i < LEVELS; i++) {
        put_kind(sink, KIND_MATCH, arms);
        put_variables(sink, 1);
        for (size_t arm = 1; arm < arms; arm++) {
            put_two(sink, KIND_ARM, arm, 0);
            put_variables(sink, 1);
        }
        put_two(sink, KIND_ARM, 0, 0);
    }
    put_variables(sink, 1);
}

/* Operations with a number before the next one, and a number in the innermost. */
static void put_deep_operations(struct word_sink *sink, size_t most)
{
    (void)most;
    put_opening(sink);
    for (size_t i = 0; i < LEVELS; i++) {
        put_kind(sink, KIND_OPERATION, i % OPERATIONS);
        put_number(sink, (uint32_t)i);
    }
    put_number(sink, LEVELS);
}

const struct shape deep_shapes[DEEP_SHAPES] = {
    { "functions", VERSION_1, put_deep_functions },
    { "lets", VERSION_1, put_deep_lets },
    { "calls", VERSION_1, put_deep_calls },
    { "constructors, atoms", VERSION_1, put_deep_atoms },
    { "constructors, not atoms", VERSION_1, put_deep_constructors },
    { "matches", VERSION_1, put_deep_matches },
    { "operations", VERSION_2, put_deep_operations },
};
