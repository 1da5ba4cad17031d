#include "gen_numbers.h"

#include "../translator/rule.h"
#include "gen_arguments.h"
#include "gen_record.h"
#include "number_cases.h"

#define LEAF 0x0600, 0x0000
#define IDENTITY 0x0201, 0x0100
#define SUM ADD, ONE_NUMBER, HIGHEST_NUMBER

const uint32_t edge_numbers[EDGE_NUMBERS] = { 0,          1,
                                              0xFFFF,     0x10000,
                                              0x7FFFFFFF, 0x80000000,
                                              0xFFFFFFFE, 0xFFFFFFFF };

/* Words that look like heads, right and wrong, where a number has its own. */
static const uint16_t like_heads[] = { 0x0000, 0x0100, 0x01FF, 0x0200,
                                       0x0401, 0x0500, 0x0600, 0x0701,
                                       0x0800, 0x0900, 0x0A00, 0x0A01,
                                       0x0B00, 0x0BFF, 0xFFFF };

enum { LIKE_HEADS = sizeof like_heads / sizeof like_heads[0] };

void put_number(struct word_sink *sink, uint32_t number)
{
    put_kind(sink, KIND_NUMBER, 0);
    put_word(sink, (uint16_t)(number >> WORD_BITS));
    put_word(sink, (uint16_t)number);
}

/* Of so many sums, as even as can be, so that no part is deep. */
static void put_sum_tree(struct word_sink *sink, size_t sums)
{
    if (sums == 0) {
        put_variables(sink, 1);
        return;
    }
    size_t beside = (sums - 1) / OPERATION_PARTS;

    put_kind(sink, KIND_OPERATION, OPERATION_ADD);
    put_sum_tree(sink, beside);
    put_sum_tree(sink, sums - 1 - beside);
}

void put_sums(struct word_sink *sink, size_t words)
{
    const size_t least = 2; /* the function, and its argument for a body */
    const size_t words_of_a_sum = 2; /* its head, and one argument more */

    put_kind(sink, KIND_FUNCTION, 1);
    put_sum_tree(sink, (words - least) / words_of_a_sum);
}

static void write_sums(struct outlet *out, size_t words)
{
    struct record record;

    start_record(&record);
    put_sums(&record.sink, words);
    end_record(&record, out);
}

/* The last two have the longest image, and a rule two words too long. */
static void write_longest_images(struct outlet *out)
{
    const size_t few_words_most = 12;
    const size_t some_words = 130;

    for (size_t words = 2; words <= few_words_most; words += 2)
        write_sums(out, words);
    write_sums(out, some_words);
    write_sums(out, RULE_WORDS_MOST);
    write_sums(out, RULE_WORDS_MOST + 2);
}

/* Every rule of the second version, whatever it is told to be. */
static void write_worked(struct outlet *out)
{
    for (size_t i = 0; i < NUMBER_ACCEPTED; i++)
        write_rule(out, number_accepted[i].rule);
    for (size_t i = 0; i < NUMBER_REFUSED; i++)
        write_rule(out, number_refused[i].rule);
    for (size_t i = 0; i < NUMBER_STUCK; i++)
        write_rule(out, number_stuck[i].rule);
    for (size_t i = 0; i < NUMBER_ENDLESS; i++)
        write_rule(out, number_endless[i].rule);
    for (size_t i = 0; i < NUMBER_IMAGES; i++)
        write_rule(out, number_images[i].rule);
    for (size_t i = 0; i < NUMBER_REFUSED_IN_FIRST; i++)
        write_rule(out, number_refused_in_first[i].rule);
}

/* A rule is never whole before its end; one word more is left over. */
static void write_beginnings(struct outlet *out, struct word_list rule)
{
    struct record record;

    for (size_t words = 1; words < rule.count; words++)
        write_rule(out, (struct word_list){ rule.words, words });
    start_record(&record);
    put_words(&record.sink, rule);
    put_kind(&record.sink, KIND_NUMBER, 0);
    end_record(&record, out);
}

static void write_all_beginnings(struct outlet *out)
{
    const size_t words_most = 32;

    for (size_t i = 0; i < NUMBER_ACCEPTED; i++)
        if (number_accepted[i].image_count > number_accepted[0].image_count &&
            number_accepted[i].rule.count <= words_most)
            write_beginnings(out, number_accepted[i].rule);
}

/* What else an unknown version's rule may be refused for, and nothing. */
static const struct word_list of_unknown_version[] = {
    { NULL, 0 },       WORD_LIST(LEAF),       WORD_LIST(ONE_NUMBER),
    WORD_LIST(0x0100), WORD_LIST(0x0A01),     WORD_LIST(0x0C00),
    WORD_LIST(0x0A00), WORD_LIST(LEAF, LEAF), WORD_LIST(SUM),
    WORD_LIST(IDENTITY),
};

enum {
    OF_UNKNOWN_VERSION =
        sizeof of_unknown_version / sizeof of_unknown_version[0]
};

/* 11 comes before all else; the longest is for one of them enough. */
static void write_unknown_versions(FILE *file)
{
    for (size_t i = 0; i < UNKNOWN_VERSIONS; i++) {
        struct outlet out = outlet_for_all(file, unknown_versions[i]);

        for (size_t j = 0; j < OF_UNKNOWN_VERSION; j++)
            write_rule(&out, of_unknown_version[j]);
        if (i == 0)
            write_sums(&out, RULE_WORDS_MOST + 2);
    }
}

static void write_operation(struct outlet *out, size_t operation,
                            uint32_t first, uint32_t second)
{
    struct record record;

    start_record(&record);
    put_kind(&record.sink, KIND_OPERATION, operation);
    put_number(&record.sink, first);
    put_number(&record.sink, second);
    end_record(&record, out);
}

static void write_edges(struct outlet *out)
{
    for (size_t operation = OPERATION_ADD; operation <= OPERATION_LESS;
         operation++)
        for (size_t i = 0; i < EDGE_NUMBERS; i++)
            for (size_t j = 0; j < EDGE_NUMBERS; j++)
                write_operation(out, operation, edge_numbers[i],
                                edge_numbers[j]);
}

/* Alone, and in an operation, where the next head follows. */
static void write_like_heads(struct outlet *out)
{
    for (size_t i = 0; i < LIKE_HEADS; i++)
        for (size_t j = 0; j < LIKE_HEADS; j++) {
            uint32_t number =
                (uint32_t)like_heads[i] << WORD_BITS | like_heads[j];
            struct record record;

            start_record(&record);
            if (i < j)
                put_kind(&record.sink, KIND_OPERATION, OPERATION_SUBTRACT);
            put_number(&record.sink, number);
            if (i < j)
                put_number(&record.sink, ~number);
            end_record(&record, out);
        }
}

/* Words before a head, with nothing missing there but the head. */
static const struct word_list before_heads[] = {
    { NULL, 0 },
    WORD_LIST(ADD),
    WORD_LIST(LESS, ONE_NUMBER),
    WORD_LIST(0x0500, ONE_NUMBER),
    WORD_LIST(0x0401, ONE_NUMBER),
    WORD_LIST(0x0601, 0x0001),
    WORD_LIST(0x0701, ONE_NUMBER, 0x0800, 0x0000),
    WORD_LIST(0x0701, LESS, ONE_NUMBER, ONE_NUMBER),
};

static const uint16_t heads[] = { 0x0A01, 0x0A02, 0x0A0F, 0x0A10, 0x0A80,
                                  0x0AFF, 0x0B03, 0x0B04, 0x0B0A, 0x0B80,
                                  0x0BFE, 0x0BFF, 0x0C00, 0x0C01, 0x0D00,
                                  0x0F00, 0x1000, 0x1A00, 0x1B00, 0x4A00,
                                  0x8A00, 0x8B00, 0xFA00, 0xFF00 };

/* With nothing after the head, and with what would follow a right one. */
static void write_heads(struct outlet *out)
{
    const struct word_list after = WORD_LIST(ONE_NUMBER, ONE_NUMBER);

    for (size_t i = 0; i < sizeof before_heads / sizeof before_heads[0]; i++)
        for (size_t j = 0; j < sizeof heads / sizeof heads[0]; j++) {
            struct record record;

            start_record(&record);
            put_words(&record.sink, before_heads[i]);
            put_word(&record.sink, heads[j]);
            if ((i + j) % 2 == 0)
                put_words(&record.sink, after);
            end_record(&record, out);
        }
}

/* One level of nesting: words before the part and words after it. */
struct nest {
    struct word_list before;
    struct word_list after;
};

static const struct nest nests[] = {
    { WORD_LIST(ADD), WORD_LIST(ONE_NUMBER) },
    { WORD_LIST(SUBTRACT, ONE_NUMBER), { NULL, 0 } },
    { WORD_LIST(0x0201), { NULL, 0 } },
    { WORD_LIST(0x0601, 0x0001), { NULL, 0 } },
    { WORD_LIST(0x0401, IDENTITY), { NULL, 0 } },
    { WORD_LIST(0x0500), WORD_LIST(0x0100) },
    { WORD_LIST(0x0702, LESS), WORD_LIST(HALF_NUMBER, 0x0800, 0x0000,
                                         HIGHEST_NUMBER, 0x0801, 0x0000,
                                         NOUGHT_NUMBER) },
};

static void write_nest(struct outlet *out, const struct nest *nest,
                       struct word_list end, size_t depth)
{
    struct record record;

    start_record(&record);
    put_repeated(&record.sink, nest->before, depth - 1);
    put_words(&record.sink, end);
    put_repeated(&record.sink, nest->after, depth - 1);
    end_record(&record, out);
}

/* Of an operation the parts are one level deeper. */
static void write_nests(struct outlet *out)
{
    const struct word_list number = WORD_LIST(ONE_NUMBER);
    const struct word_list sum = WORD_LIST(SUM);

    for (size_t i = 0; i < sizeof nests / sizeof nests[0]; i++) {
        write_nest(out, &nests[i], number, 2);
        write_nest(out, &nests[i], number, RULE_DEPTH_MOST);
        write_nest(out, &nests[i], number, RULE_DEPTH_MOST + 1);
        write_nest(out, &nests[i], sum, RULE_DEPTH_MOST - 1);
        write_nest(out, &nests[i], sum, RULE_DEPTH_MOST);
    }
}

/* At depth 65 the tests before 6 and after it; at depth 64 what is cut. */
static const struct word_list deep_ends[] = {
    { NULL, 0 },       WORD_LIST(0x0A00), WORD_LIST(0x0A00, 0x0000),
    WORD_LIST(0x0A01), WORD_LIST(ADD),    WORD_LIST(0x0BFF),
    WORD_LIST(0x0C00), WORD_LIST(0x01FF), WORD_LIST(ONE_NUMBER, 0x0000),
};

static void write_depths(struct outlet *out)
{
    const struct nest last_parts = { WORD_LIST(SUBTRACT, ONE_NUMBER),
                                     { NULL, 0 } };

    for (size_t i = 0; i < sizeof deep_ends / sizeof deep_ends[0]; i++) {
        write_nest(out, &last_parts, deep_ends[i], RULE_DEPTH_MOST);
        write_nest(out, &last_parts, deep_ends[i], RULE_DEPTH_MOST + 1);
    }
}

/* Numbers for arguments, and at the given place a sum if there is one. */
static void put_numbers(struct word_sink *sink, size_t count, size_t sum_place)
{
    const struct word_list sum = WORD_LIST(SUM);

    for (size_t i = 0; i < count; i++) {
        if (i == sum_place)
            put_words(sink, sum);
        else
            put_number(sink, edge_numbers[i % EDGE_NUMBERS]);
    }
}

static void write_wide_constructor(struct outlet *out, size_t arguments,
                                   size_t sum_place)
{
    struct record record;

    start_record(&record);
    put_two(&record.sink, KIND_CONSTRUCTOR, arguments, arguments);
    put_numbers(&record.sink, arguments, sum_place);
    end_record(&record, out);
}

/* The difference of a function's first and last argument. */
static void write_wide_call(struct outlet *out, enum kind kind,
                            size_t arguments, size_t sum_place)
{
    struct record record;

    start_record(&record);
    put_kind(&record.sink, KIND_CALL, arguments);
    put_kind(&record.sink, kind, arguments);
    put_kind(&record.sink, KIND_OPERATION, OPERATION_SUBTRACT);
    put_kind(&record.sink, KIND_VARIABLE, arguments - 1);
    put_kind(&record.sink, KIND_VARIABLE, 0);
    put_numbers(&record.sink, arguments, sum_place);
    end_record(&record, out);
}

/* The sum of an arm's first and last variable. */
static void write_wide_match(struct outlet *out, size_t arity,
                             size_t sum_place)
{
    struct record record;

    start_record(&record);
    put_kind(&record.sink, KIND_MATCH, 1);
    put_two(&record.sink, KIND_CONSTRUCTOR, 0, arity);
    put_numbers(&record.sink, arity, sum_place);
    put_two(&record.sink, KIND_ARM, 0, arity);
    put_kind(&record.sink, KIND_OPERATION, OPERATION_ADD);
    put_kind(&record.sink, KIND_VARIABLE, arity - 1);
    put_kind(&record.sink, KIND_VARIABLE, 0);
    end_record(&record, out);
}

/* Up to one argument too many; a sum first, in the middle, last, nowhere. */
static void write_wide(struct outlet *out)
{
    for (size_t count = 1; count <= ARGUMENTS_MOST + 1; count++) {
        write_wide_constructor(out, count, 0);
        write_wide_constructor(out, count, count / 2);
        write_wide_constructor(out, count, count - 1);
        write_wide_constructor(out, count, count);
        write_wide_call(out, KIND_FUNCTION, count, count - 1);
        write_wide_call(out, KIND_RECURSIVE, count, count / 2);
        write_wide_match(out, count, 0);
        write_wide_match(out, count, count);
    }
}

void write_numbers(FILE *file)
{
    struct outlet first = outlet_for_all(file, VERSION_1);
    struct outlet second = outlet_for_all(file, VERSION_2);

    write_worked(&second);
    write_worked(&first);
    write_all_beginnings(&second);
    write_unknown_versions(file);
    write_edges(&second);
    write_like_heads(&second);
    write_heads(&second);
    write_heads(&first);
    write_nests(&second);
    write_depths(&second);
    write_wide(&second);
    write_longest_images(&second);
}
