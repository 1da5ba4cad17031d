#include "gen_runs.h"

#include "gen_record.h"

/* Numbers as constructors: 0600 0000 is nought, 0601 0001 one more. */
#define NOUGHT 0x0600, 0x0000
#define ONE_MORE 0x0601, 0x0001
#define TWO ONE_MORE, ONE_MORE, NOUGHT
#define THREE ONE_MORE, TWO

/* x_1 plus x_0, by recursion over x_1. */
#define PLUS                                                               \
    0x0302, 0x0702, 0x0101, 0x0800, 0x0000, 0x0100, 0x0801, 0x0001, 0x0601, \
        0x0001, 0x0402, 0x0103, 0x0100, 0x0101

/* x_1 times x_0, where plus stands outside. */
#define TIMES                                                              \
    0x0302, 0x0702, 0x0101, 0x0800, 0x0000, NOUGHT, 0x0801, 0x0001, 0x0402, \
        0x0104, 0x0101, 0x0402, 0x0103, 0x0100, 0x0101

/* Lists: 0600 0000 is empty, 0602 0002 a head and a tail. */
#define JOIN 0x0602, 0x0002
#define EACH                                                               \
    0x0302, 0x0702, 0x0100, 0x0800, 0x0000, 0x0600, 0x0000, 0x0802, 0x0002, \
        0x0602, 0x0002, 0x0401, 0x0103, 0x0101, 0x0402, 0x0104, 0x0103,     \
        0x0100

#define TWICE 0x0201, 0x0201, 0x0401, 0x0101, 0x0401, 0x0101, 0x0100

static const struct word_list with_value[] = {
    WORD_LIST(0x0402, PLUS, TWO, THREE),
    WORD_LIST(0x0500, PLUS, 0x0402, TIMES, THREE, THREE),
    WORD_LIST(0x0402, EACH, 0x0201, ONE_MORE, 0x0100, JOIN, NOUGHT, JOIN, TWO,
              NOUGHT),
    /* Functions as results, with values put in for their variables. */
    WORD_LIST(0x0500, 0x0201, 0x0201, 0x0101, 0x0401, 0x0100, 0x0605, 0x0000),
    WORD_LIST(0x0500, 0x0605, 0x0000, 0x0301, 0x0702, 0x0100, 0x0800, 0x0000,
              0x0102, 0x0801, 0x0001, 0x0401, 0x0102, 0x0100),
    WORD_LIST(0x0500, 0x0201, 0x0100, 0x0601, 0x0002, 0x0100, 0x0203, 0x0402,
              0x0103, 0x0102, 0x0100),
    WORD_LIST(0x0401, 0x0301, 0x0101, NOUGHT),
    WORD_LIST(0x0401, 0x0401, 0x0401, 0x0202, 0x0201, 0x0102, NOUGHT, THREE,
              TWO),
    WORD_LIST(0x0401, 0x0402, 0x0202, 0x0201, 0x0102, NOUGHT, THREE, TWO),
    /* Functions given to functions. */
    WORD_LIST(0x0500, TWICE, 0x0401, 0x0401, 0x0401, 0x0100, 0x0100, 0x0201,
              ONE_MORE, 0x0100, NOUGHT),
    /* Constructors: atoms only, one part unfinished, one below another. */
    WORD_LIST(0x0601, 0x0002, 0x0201, 0x0100, NOUGHT),
    WORD_LIST(0x0604, 0x0003, NOUGHT, 0x0401, 0x0201, 0x0100, 0x0601, 0x0000,
              0x0602, 0x0001, NOUGHT),
    WORD_LIST(0x0602, 0x0002, 0x0603, 0x0001, NOUGHT, 0x0603, 0x0001, 0x0401,
              0x0201, 0x0100, NOUGHT),
    WORD_LIST(0x0500, NOUGHT, 0x0602, 0x0002, 0x0603, 0x0001, 0x0100, 0x0500,
              0x0100, 0x0101),
    /* "the first arm that has both the tag and the arity" */
    WORD_LIST(0x0703, NOUGHT, 0x0801, 0x0000, 0x0601, 0x0000, 0x0800, 0x0001,
              0x0100, 0x0800, 0x0000, 0x0602, 0x0000),
    WORD_LIST(0x0702, NOUGHT, 0x0800, 0x0000, 0x0601, 0x0000, 0x0800, 0x0003,
              0x0102),
    WORD_LIST(0x0702, NOUGHT, 0x0800, 0x0001, 0x0100, 0x0800, 0x0000, NOUGHT),
    /* Matches and lets inside each other. */
    WORD_LIST(0x0701, 0x0701, JOIN, TWO, THREE, 0x0802, 0x0002, JOIN, 0x0100,
              0x0101, 0x0802, 0x0002, 0x0101),
    WORD_LIST(0x0500, 0x0500, TWO, ONE_MORE, 0x0100, 0x0500, 0x0701, 0x0100,
              0x0801, 0x0001, 0x0100, JOIN, 0x0100, 0x0101),
};

static const struct word_list without_value[] = {
    /* A call of a constructor, or with other than the function's arguments. */
    WORD_LIST(0x0401, NOUGHT, NOUGHT),
    WORD_LIST(0x0402, 0x0201, 0x0100, NOUGHT, NOUGHT),
    WORD_LIST(0x0401, 0x0302, 0x0100, NOUGHT),
    /* A match of a function, without the tag, with another arity. */
    WORD_LIST(0x0701, 0x0201, 0x0100, 0x0800, 0x0000, NOUGHT),
    WORD_LIST(0x0701, 0x0601, 0x0000, 0x0800, 0x0000, NOUGHT),
    WORD_LIST(0x0701, ONE_MORE, NOUGHT, 0x0801, 0x0000, NOUGHT),
    /* The tag in one arm, the arity in another. */
    WORD_LIST(0x0702, ONE_MORE, NOUGHT, 0x0801, 0x0000, NOUGHT, 0x0800, 0x0001,
              0x0100),
    /* Inside a let, a constructor, an argument, an arm. */
    WORD_LIST(0x0500, 0x0401, NOUGHT, NOUGHT, NOUGHT),
    WORD_LIST(0x0602, 0x0002, NOUGHT, 0x0401, NOUGHT, NOUGHT),
    WORD_LIST(0x0401, 0x0201, NOUGHT, 0x0401, NOUGHT, NOUGHT),
    WORD_LIST(0x0701, NOUGHT, 0x0800, 0x0000, 0x0401, NOUGHT, NOUGHT),
};

static const struct word_list without_end[] = {
    WORD_LIST(0x0401, 0x0301, 0x0401, 0x0101, 0x0100, NOUGHT),
    WORD_LIST(0x0401, 0x0201, 0x0401, 0x0100, 0x0100, 0x0201, 0x0401, 0x0100,
              0x0100),
    WORD_LIST(0x0401, 0x0301, ONE_MORE, 0x0401, 0x0101, 0x0100, NOUGHT),
    WORD_LIST(0x0500, 0x0601, 0x0001, 0x0201, 0x0701, 0x0100, 0x0801, 0x0001,
              0x0401, 0x0100, 0x0101, 0x0701, 0x0100, 0x0801, 0x0001, 0x0401,
              0x0100, 0x0101),
};

/* A value that doubles with every let. */
static void write_doubling(struct outlet *out, size_t lets)
{
    const struct word_list first = WORD_LIST(0x0500, NOUGHT);
    const struct word_list doubling =
        WORD_LIST(0x0500, 0x0602, 0x0002, 0x0100, 0x0100);
    struct record record;

    start_record(&record);
    put_words(&record.sink, first);
    put_repeated(&record.sink, doubling, lets);
    put_kind(&record.sink, KIND_VARIABLE, 0);
    end_record(&record, out);
}

/* Squares a number by recursion, so that runs grow long. */
static void write_square(struct outlet *out, size_t number)
{
    const struct word_list before =
        WORD_LIST(0x0500, PLUS, 0x0500, TIMES, 0x0401, 0x0201, 0x0402, 0x0101,
                  0x0100, 0x0100);
    const struct word_list one_more = WORD_LIST(ONE_MORE);
    struct record record;

    start_record(&record);
    put_words(&record.sink, before);
    put_repeated(&record.sink, one_more, number);
    put_leaf(&record.sink);
    end_record(&record, out);
}

/* A match of one tag, with an arm for each arity in falling order. */
static void write_forms(struct outlet *out, size_t arguments)
{
    struct record record;

    start_record(&record);
    put_kind(&record.sink, KIND_MATCH, ARGUMENTS_MOST + 1);
    put_two(&record.sink, KIND_CONSTRUCTOR, 0, arguments);
    put_places(&record.sink, arguments);
    for (size_t i = 0; i <= ARGUMENTS_MOST; i++) {
        size_t arity = ARGUMENTS_MOST - i;

        put_two(&record.sink, KIND_ARM, 0, arity);
        if (arity > 0)
            put_kind(&record.sink, KIND_VARIABLE, arity / 2);
        else
            put_leaf(&record.sink);
    }
    end_record(&record, out);
}

/* All the arguments that a constructor may have, put into another order. */
static void write_reordered(struct outlet *out)
{
    struct record record;

    start_record(&record);
    put_kind(&record.sink, KIND_MATCH, 1);
    put_two(&record.sink, KIND_CONSTRUCTOR, LOW_BYTE_MOST, ARGUMENTS_MOST);
    put_places(&record.sink, ARGUMENTS_MOST);
    put_two(&record.sink, KIND_ARM, LOW_BYTE_MOST, ARGUMENTS_MOST);
    put_two(&record.sink, KIND_CONSTRUCTOR, ARGUMENTS_MOST, ARGUMENTS_MOST);
    for (size_t i = ARGUMENTS_MOST; i-- > 0;)
        if (i % 2 != 0)
            put_kind(&record.sink, KIND_VARIABLE, i);
    for (size_t i = 0; i < ARGUMENTS_MOST; i += 2)
        put_kind(&record.sink, KIND_VARIABLE, i);
    end_record(&record, out);
}

static void write_all(struct outlet *out, const struct word_list *rules,
                      size_t count)
{
    for (size_t i = 0; i < count; i++)
        write_rule(out, rules[i]);
}

void write_runs(struct outlet *out)
{
    const size_t lets = 10;
    const size_t far_too_many_lets = 50;
    const size_t number = 12;

    write_all(out, with_value, sizeof with_value / sizeof with_value[0]);
    write_all(out, without_value,
              sizeof without_value / sizeof without_value[0]);
    write_all(out, without_end, sizeof without_end / sizeof without_end[0]);
    for (size_t arguments = 0; arguments <= ARGUMENTS_MOST; arguments++)
        write_forms(out, arguments);
    write_reordered(out);
    write_doubling(out, lets);
    write_doubling(out, far_too_many_lets);
    write_square(out, number);
}
