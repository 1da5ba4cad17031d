#include "fuzz_wide.h"

#include "gen_arms.h"
#include "gen_record.h"

enum {
    LARGE_ARGUMENTS_LEAST = SMALL_COUNT_MOST + 1,
    WIDE_ARGUMENTS_LEAST = ARGUMENTS_MOST - 1,
    TOO_MANY_ARGUMENTS = ARGUMENTS_MOST + 1,
    WIDE_ARMS_LEAST = ARMS_MOST - 2,
    TOO_MANY_ARMS = ARMS_MOST + 1
};

/* One in so many is too wide; there are thirty arms and one is enough. */
enum { TOO_WIDE_ODDS = 6, TOO_WIDE_ARM_ODDS = 150 };

/* One in so many is the rarer choice. */
enum { WIDEST_ODDS = 2, RECURSIVE_ODDS = 3 };

/* A recursive function calls itself so often at most. */
enum { TURNS_MOST = 2 };

/* Of so many arms of a wide match one wants the tag before its own, one any. */
enum wide_tag { TAG_BEFORE, TAG_ANY, WIDE_TAGS = 5 };

enum { TAGS = LOW_BYTE_MOST + 1 };

/* Half are within one of the most there may be; the others are not small. */
static size_t wide_count(struct maker *maker, size_t too_wide_odds)
{
    bool widest = one_in(maker, WIDEST_ODDS);

    if (one_in(maker, too_wide_odds))
        return TOO_MANY_ARGUMENTS;
    return from_to(maker,
                   widest ? WIDE_ARGUMENTS_LEAST : LARGE_ARGUMENTS_LEAST,
                   ARGUMENTS_MOST);
}

static void put_data(struct maker *maker, const struct levels *levels,
                     size_t depth, size_t times)
{
    for (; times > 0; times--)
        put_beside(maker, levels, (struct place){ DATA, depth });
}

static void put_wide_call(struct maker *maker, const struct levels *levels,
                          size_t depth)
{
    size_t arguments = wide_count(maker, TOO_WIDE_ODDS);

    put_kind(maker->sink, KIND_CALL, arguments);
    put_beside(maker, levels, (struct place){ arguments, depth + 1 });
    put_data(maker, levels, depth + 1, arguments);
}

static void put_wide_function(struct maker *maker, const struct levels *levels,
                              size_t depth)
{
    size_t outside = maker->bound;
    size_t arguments = wide_count(maker, TOO_WIDE_ODDS);
    bool recursive = one_in(maker, RECURSIVE_ODDS);

    put_kind(maker->sink, recursive ? KIND_RECURSIVE : KIND_FUNCTION,
             arguments);
    bind_variables(maker, arguments, recursive);
    bind_variables(maker, DATA, arguments);
    put_data(maker, levels, depth + 1, 1);
    maker->bound = outside;
}

static void put_wide_constructor(struct maker *maker,
                                 const struct levels *levels, size_t depth)
{
    size_t tag = below(maker, LOW_BYTE_MOST + 1);
    size_t arguments = wide_count(maker, TOO_WIDE_ODDS);

    put_two(maker->sink, KIND_CONSTRUCTOR, tag, arguments);
    for (; arguments > 0; arguments--) {
        size_t type = chooses_number(maker) ? NUMERIC : DATA;

        put_beside(maker, levels, (struct place){ type, depth + 1 });
    }
}

/* An arm whose body calls the function around, its last argument first. */
static void put_turn(struct maker *maker, size_t arguments, size_t tag)
{
    put_two(maker->sink, KIND_ARM, tag, 0);
    put_kind(maker->sink, KIND_CALL, arguments);
    put_kind(maker->sink, KIND_VARIABLE, arguments); /* its name */
    put_kind(maker->sink, KIND_VARIABLE, 0);
    for (size_t index = arguments - 1; index > 0; index--)
        put_kind(maker->sink, KIND_VARIABLE, index);
}

/*
 * A recursive function whose arguments have their places for tags. It calls
 * itself as often as there are turns, then gives one of them back.
 */
static void put_wide_recursion(struct maker *maker,
                               const struct levels *levels, size_t depth)
{
    size_t arguments = wide_count(maker, TOO_WIDE_ODDS);
    size_t turns = from_to(maker, 1, TURNS_MOST);
    size_t given_back = below(maker, arguments);

    (void)levels;
    (void)depth;
    put_kind(maker->sink, KIND_CALL, arguments);
    put_kind(maker->sink, KIND_RECURSIVE, arguments);
    put_kind(maker->sink, KIND_MATCH, turns + 1);
    put_kind(maker->sink, KIND_VARIABLE, 0);
    for (size_t i = 1; i <= turns; i++)
        put_turn(maker, arguments, arguments - i);
    put_two(maker->sink, KIND_ARM, arguments - 1 - turns, 0);
    put_kind(maker->sink, KIND_VARIABLE, given_back);
    put_places(maker->sink, arguments);
}

/* The tag is most often the one that comes next. */
static struct arm wide_arm(struct maker *maker, size_t next_tag)
{
    struct arm arm = { .tag = next_tag % TAGS };

    switch (below(maker, WIDE_TAGS)) {
    case TAG_BEFORE:
        arm.tag = (arm.tag + TAGS - 1) % TAGS;
        break;
    case TAG_ANY:
        arm.tag = below(maker, TAGS);
        break;
    default:
        break;
    }
    arm.arity = wide_count(maker, TOO_WIDE_ARM_ODDS);
    return arm;
}

/* One of the arms is made to fit the subject. */
static void put_wide_match(struct maker *maker, const struct levels *levels,
                           size_t depth)
{
    size_t outside = maker->bound;
    size_t count = one_in(maker, TOO_WIDE_ODDS)
                       ? (size_t)TOO_MANY_ARMS
                       : from_to(maker, WIDE_ARMS_LEAST, ARMS_MOST);
    size_t first_tag = below(maker, TAGS);
    size_t place = below(maker, count);
    struct arm fitting = wide_arm(maker, first_tag + place);
    struct arms arms = { .count = 0 };

    put_kind(maker->sink, KIND_MATCH, count);
    put_two(maker->sink, KIND_CONSTRUCTOR, fitting.tag, fitting.arity);
    put_data(maker, levels, depth + 2, fitting.arity);
    for (size_t i = 0; i < count; i++) {
        begin_arm(maker, &arms,
                  i == place ? fitting : wide_arm(maker, first_tag + i));
        put_data(maker, levels, depth + 1, 1);
        maker->bound = outside;
    }
}

void put_wide_term(struct maker *maker, const struct levels *levels,
                   struct place place)
{
    static void (*const choices[])(struct maker *, const struct levels *,
                                   size_t depth) = {
        put_wide_call, put_wide_function, put_wide_constructor,
        put_wide_match, put_wide_recursion
    };

    choices[below(maker, sizeof choices / sizeof choices[0])](maker, levels,
                                                              place.depth);
}
