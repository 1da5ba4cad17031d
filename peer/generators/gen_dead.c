#include "gen_dead.h"

#include "../translator/rule.h"
#include "cases.h"
#include "gen_record.h"

#define LEAF 0x0600, 0x0000
#define ARM 0x0800, 0x0000
#define LONGER_ARM 0x0800, 0x0001
#define OTHER_ARM 0x0801, 0x0000

enum { TAGS_OF_MANY = 5 };

_Static_assert(ARMS_MOST / TAGS_OF_MANY <= ARGUMENTS_MOST,
               "all arms of a match, and one more, have one of these tags");

static void put_leaves(struct word_sink *sink, size_t times)
{
    for (; times > 0; times--)
        put_leaf(sink);
}

void put_two_arms(struct word_sink *sink, struct arm first, struct arm second)
{
    put_kind(sink, KIND_MATCH, 2);
    put_leaf(sink);
    put_two(sink, KIND_ARM, first.tag, first.arity);
    put_leaf(sink);
    put_two(sink, KIND_ARM, second.tag, second.arity);
    put_leaf(sink);
}

/* Each of the tags once with every arity, then with the next. */
static struct arm one_of_many(size_t place)
{
    return (struct arm){ place % TAGS_OF_MANY, place / TAGS_OF_MANY };
}

void put_many_arms(struct word_sink *sink, struct many_arms arms)
{
    struct arm living = one_of_many(arms.living);

    put_kind(sink, KIND_MATCH, arms.count);
    put_two(sink, KIND_CONSTRUCTOR, living.tag, living.arity);
    put_leaves(sink, living.arity);
    for (size_t i = 0; i < arms.count; i++) {
        struct arm arm = i == arms.dead ? living : one_of_many(i);

        put_two(sink, KIND_ARM, arm.tag, arm.arity);
        put_two(sink, KIND_CONSTRUCTOR, i, 0);
    }
}

void put_depth_for_match(struct word_sink *sink)
{
    const struct word_list function = WORD_LIST(0x0201);
    const size_t levels_of_match = 2; /* its own, and its parts' */

    put_repeated(sink, function, RULE_DEPTH_MOST - levels_of_match);
}

static void write_two_arms(struct outlet *out, struct arm first,
                           struct arm second)
{
    struct record record;

    start_record(&record);
    put_two_arms(&record.sink, first, second);
    end_record(&record, out);
}

static void write_many_arms(struct outlet *out, size_t count, size_t dead,
                            size_t living)
{
    struct record record;

    start_record(&record);
    put_many_arms(&record.sink, (struct many_arms){ count, dead, living });
    end_record(&record, out);
}

/* Dead by the first arm, a middle one and the neighbour; and none dead. */
static void write_dead_among_many(struct outlet *out)
{
    const size_t last = ARMS_MOST - 1;
    const size_t middle = ARMS_MOST / 2;

    for (size_t count = 2; count < ARMS_MOST; count++)
        write_many_arms(out, count, count - 1, count / 2 - 1);
    write_many_arms(out, ARMS_MOST, 1, 0);
    write_many_arms(out, ARMS_MOST, middle, 0);
    write_many_arms(out, ARMS_MOST, middle, middle - 1);
    write_many_arms(out, ARMS_MOST, last, 0);
    write_many_arms(out, ARMS_MOST, last, middle);
    write_many_arms(out, ARMS_MOST, last, last - 1);
    write_many_arms(out, ARMS_MOST + 1, last, 0); /* 5 at its head */
    write_many_arms(out, ARMS_MOST, 0, 0);
    write_many_arms(out, ARMS_MOST, middle, middle);
    write_many_arms(out, ARMS_MOST, last, last);
}

_Static_assert(ARGUMENTS_MOST + 2 <= ARMS_MOST,
               "a match has an arm for each arity, and one more");

/* One tag with every arity, and once more with that one if there is such. */
static void write_arities(struct outlet *out, size_t again)
{
    const size_t arities = ARGUMENTS_MOST + 1;
    bool is_dead = again < arities;
    struct record record;

    start_record(&record);
    put_kind(&record.sink, KIND_MATCH, arities + is_dead);
    put_leaf(&record.sink);
    for (size_t arity = 0; arity < arities; arity++) {
        put_two(&record.sink, KIND_ARM, LOW_BYTE_MOST, arity);
        put_leaf(&record.sink);
    }
    if (is_dead) {
        put_two(&record.sink, KIND_ARM, LOW_BYTE_MOST, again);
        put_leaf(&record.sink);
    }
    end_record(&record, out);
}

/* Two that differ, though a sum, a number or a byte made of each may not. */
static const struct arm alike[][2] = {
    { { 0, 0 }, { 0, ARGUMENTS_MOST } },
    { { 0, 1 }, { 1, 0 } },
    { { ARGUMENTS_MOST, 1 }, { 1, ARGUMENTS_MOST } },
    { { 0, 0 }, { 64, 0 } },
    { { 63, ARGUMENTS_MOST }, { 127, ARGUMENTS_MOST } },
    { { 0, 3 }, { 32, 3 } },
    { { 0, 5 }, { 128, 5 } },
    { { 0, 1 }, { 16, 0 } },
    { { 5, 2 }, { 2, 5 } },
    { { 254, ARGUMENTS_MOST }, { 255, ARGUMENTS_MOST } },
    { { 255, 0 }, { 0, 0 } },
    { { 255, ARGUMENTS_MOST - 1 }, { 255, ARGUMENTS_MOST } },
    { { 127, 0 }, { 255, 0 } },
};

static void write_alike(struct outlet *out)
{
    for (size_t i = 0; i < sizeof alike / sizeof alike[0]; i++) {
        write_two_arms(out, alike[i][0], alike[i][1]);
        write_two_arms(out, alike[i][1], alike[i][0]);
        write_two_arms(out, alike[i][0], alike[i][0]);
        write_two_arms(out, alike[i][1], alike[i][1]);
    }
    for (size_t arity = 1; arity <= ARGUMENTS_MOST; arity++) {
        write_two_arms(out, (struct arm){ 0, arity }, (struct arm){ 1, 0 });
        write_two_arms(out, (struct arm){ 1, 0 }, (struct arm){ 0, arity });
    }
}

/* A match around another: words before it, and after it with a dead arm. */
struct nest {
    struct word_list before;
    struct word_list after;
    struct word_list dead_after;
};

static const struct nest nests[] = {
    /* In the subject. */
    { WORD_LIST(0x0702), WORD_LIST(ARM, LEAF, LONGER_ARM, LEAF),
      WORD_LIST(ARM, LEAF, ARM, LEAF) },
    /* In the first arm's body, alone or as an argument. */
    { WORD_LIST(0x0702, LEAF, ARM), WORD_LIST(LONGER_ARM, LEAF),
      WORD_LIST(ARM, LEAF) },
    { WORD_LIST(0x0702, LEAF, LONGER_ARM, 0x0401, 0x0201, 0x0100),
      WORD_LIST(ARM, LEAF), WORD_LIST(LONGER_ARM, LEAF) },
    /* In the middle arm's body. */
    { WORD_LIST(0x0703, LEAF, ARM, LEAF, LONGER_ARM),
      WORD_LIST(OTHER_ARM, LEAF), WORD_LIST(ARM, LEAF) },
};

enum { NESTS = sizeof nests / sizeof nests[0], LEVELS = 3 };

/* The matches one inside the other; at the dead level there is a dead arm. */
static void write_nest(struct outlet *out, const struct nest *const *levels,
                       size_t dead)
{
    struct record record;

    start_record(&record);
    for (size_t i = 0; i < LEVELS; i++)
        put_words(&record.sink, levels[i]->before);
    put_leaf(&record.sink);
    for (size_t i = LEVELS; i-- > 0;)
        put_words(&record.sink,
                  i == dead ? levels[i]->dead_after : levels[i]->after);
    end_record(&record, out);
}

/* For each two nests a third in turn; a dead arm at each level and at none. */
static void write_nests(struct outlet *out)
{
    for (size_t i = 0; i < NESTS; i++)
        for (size_t j = 0; j < NESTS; j++)
            for (size_t dead = 0; dead <= LEVELS; dead++) {
                const struct nest *const levels[LEVELS] = {
                    &nests[i], &nests[j], &nests[(i + j) % NESTS]
                };

                write_nest(out, levels, dead);
            }
}

/* Faults of each number that a body can have, and a body without one. */
static const struct word_list bodies[] = {
    { NULL, 0 },
    WORD_LIST(0x0600),
    WORD_LIST(0x0A00),
    WORD_LIST(ARM, LEAF),
    WORD_LIST(0x0200, 0x0100),
    WORD_LIST(0x0601, 0x00FF),
    WORD_LIST(0x0201, LEAF), /* too deep at the last depth only */
    WORD_LIST(0x01FF),
    WORD_LIST(0x0702, LEAF, ARM, LEAF, ARM, LEAF),
    WORD_LIST(LEAF),
};

static void write_two_lists(struct outlet *out, bool deep,
                            struct word_list before, struct word_list after)
{
    struct record record;

    start_record(&record);
    if (deep)
        put_depth_for_match(&record.sink);
    put_words(&record.sink, before);
    put_words(&record.sink, after);
    end_record(&record, out);
}

/* The body in the dead arm and in one that is not, and ahead of a dead arm. */
static void write_bodies(struct outlet *out, bool deep)
{
    const struct word_list dead = WORD_LIST(0x0702, LEAF, ARM, LEAF, ARM);
    const struct word_list living =
        WORD_LIST(0x0702, LEAF, ARM, LEAF, LONGER_ARM);
    const struct word_list first = WORD_LIST(0x0703, LEAF, ARM);
    const struct word_list rest = WORD_LIST(ARM, LEAF, LONGER_ARM, LEAF);

    for (size_t i = 0; i < sizeof bodies / sizeof bodies[0]; i++) {
        struct record front;

        write_two_lists(out, deep, dead, bodies[i]);
        write_two_lists(out, deep, living, bodies[i]);
        start_record(&front);
        put_words(&front.sink, first);
        put_words(&front.sink, bodies[i]);
        write_two_lists(out, deep, sink_words(&front.sink), rest);
    }
}

/* A match's second arm from its head on; 3, 4 and 5 come before 18. */
static const struct word_list second_arms[] = {
    WORD_LIST(0x0800),
    WORD_LIST(0x0800, 0x00FF, LEAF),
    WORD_LIST(0x0800, 0x8000, LEAF),
    WORD_LIST(0x0800, 0xFFFF, LEAF),
    WORD_LIST(0x0700, 0x0000, LEAF),
    WORD_LIST(0x0900, 0x0000, LEAF),
    WORD_LIST(0x1800, 0x0000, LEAF),
    /* 18 comes before 8, and without it there is an 8. */
    WORD_LIST(ARM, LEAF, LEAF),
    WORD_LIST(LONGER_ARM, LEAF, LEAF),
};

/* A second word of which the low byte is an earlier arm's is out of range. */
static void write_second_arms(struct outlet *out)
{
    const struct word_list before = WORD_LIST(0x0702, LEAF, ARM, LEAF);
    const size_t byte_more = LOW_BYTE_MOST + 1;

    for (size_t i = 0; i < sizeof second_arms / sizeof second_arms[0]; i++)
        write_two_lists(out, false, before, second_arms[i]);
    for (size_t arity = 0; arity <= ARGUMENTS_MOST; arity++)
        write_two_arms(out, (struct arm){ 0, arity },
                       (struct arm){ 0, byte_more + arity });
}

/* 18 at a rule's last word, the longest rule's, comes before 3. */
static void write_dead_last_word(struct outlet *out)
{
    const struct word_list before = WORD_LIST(0x0702, LEAF, ARM);
    const struct word_list dead = WORD_LIST(ARM);
    struct record record;

    start_record(&record);
    put_words(&record.sink, before);
    put_filler(&record.sink, RULE_WORDS_MOST - before.count - dead.count);
    put_words(&record.sink, dead);
    end_record(&record, out);
}

static void write_worked_dead(struct outlet *out)
{
    struct word_list whole = dead_cases[0].rule;

    for (size_t i = 0; i < DEAD_CASES; i++)
        write_rule(out, dead_cases[i].rule);
    for (size_t words = 1; words < whole.count; words++)
        write_rule(out, (struct word_list){ whole.words, words });
}

void write_dead_arms(struct outlet *out)
{
    write_worked_dead(out);
    write_dead_among_many(out);
    for (size_t again = 0; again <= ARGUMENTS_MOST + 1; again++)
        write_arities(out, again);
    write_alike(out);
    write_nests(out);
    write_bodies(out, false);
    write_bodies(out, true);
    write_second_arms(out);
    write_dead_last_word(out);
}
