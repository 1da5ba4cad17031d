#include "gen_numeric.h"

#include "gen_arms.h"
#include "gen_fitting.h"
#include "gen_numbers.h"
#include "gen_record.h"

/* Of so many numbers one is small, one is any, and the others are edges. */
enum some_number { SMALL_NUMBER, ANY_NUMBER, SOME_NUMBERS = 4 };

enum { SMALL_NUMBERS = 12 };

/* One in so many is the rarer choice. */
enum {
    OTHER_ARM_ODDS = 3,
    LESS_ARM_FIRST_ODDS = 2,
    RECURSIVE_ODDS = 4,
    NUMERIC_ARGUMENT_ODDS = 2,
    COUNT_DOWN_ODDS = 3,
    LOOP_ODDS = 3
};

/* A loop takes so many turns at most, and so many levels; a call's body two. */
enum { TURNS_MOST = 6, LOOP_LEVELS = 6, CALL_LEVELS = 2 };

/* In a loop's function the sum so far, the count, and the function's name. */
enum { LOOP_COUNT, LOOP_SUM, LOOP_ITSELF, LOOP_ARGUMENTS = LOOP_ITSELF };

static uint32_t some_number(struct maker *maker)
{
    switch (below(maker, SOME_NUMBERS)) {
    case SMALL_NUMBER:
        return (uint32_t)below(maker, SMALL_NUMBERS);
    case ANY_NUMBER:
        return next_random(maker);
    default:
        return edge_numbers[below(maker, EDGE_NUMBERS)];
    }
}

void put_some_number(struct maker *maker)
{
    put_number(maker->sink, some_number(maker));
}

/* The spot may be a leaf's. */
static void put_operation(struct maker *maker, enum operation operation,
                          struct spot spot)
{
    struct spot part = { spot.target / OPERATION_PARTS, spot.depth + 1 };

    put_kind(maker->sink, KIND_OPERATION, operation);
    for (size_t i = 0; i < OPERATION_PARTS; i++)
        put_fitting(maker, NUMERIC, part);
}

void put_numeric_operation(struct maker *maker, struct spot spot)
{
    put_operation(maker, one_in(maker, 2) ? OPERATION_ADD : OPERATION_SUBTRACT,
                  spot);
}

/* A match on what less gives, with both arms and perhaps one for no form. */
static void put_less_match(struct maker *maker, size_t type, struct spot spot)
{
    const size_t answers = 2;
    size_t outside = maker->bound;
    size_t first = one_in(maker, LESS_ARM_FIRST_ODDS) ? TAG_LESS : TAG_NOT_LESS;
    size_t other = one_in(maker, OTHER_ARM_ODDS) ? 1 : 0;
    struct spot part = part_of(spot, answers + other + 1);
    struct arms arms = { .count = 0 };

    put_kind(maker->sink, KIND_MATCH, answers + other);
    put_operation(maker, OPERATION_LESS, part);
    for (size_t i = 0; i < answers + other; i++) {
        struct arm arm = { (first + i) % answers, i < answers ? 0 : 1 };

        begin_arm(maker, &arms, arm);
        put_fitting(maker, type, part);
        maker->bound = outside;
    }
}

/* A function written where it is called, so that arguments may be numbers. */
static void put_numeric_call(struct maker *maker, size_t type,
                             struct spot spot)
{
    size_t outside = maker->bound;
    size_t arguments = count_for_spot(maker, ARGUMENTS_MOST, spot);
    bool recursive = one_in(maker, RECURSIVE_ODDS);
    struct spot part = part_of(spot, arguments + 1);
    size_t types[ARGUMENTS_MOST];

    put_kind(maker->sink, KIND_CALL, arguments);
    put_kind(maker->sink, recursive ? KIND_RECURSIVE : KIND_FUNCTION,
             arguments);
    bind_variables(maker, FOREIGN, recursive);
    for (size_t i = 0; i < arguments; i++) {
        types[i] =
            one_in(maker, NUMERIC_ARGUMENT_ODDS) ? NUMERIC : some_type(maker);
        bind_variables(maker, types[i], 1);
    }
    put_fitting(maker, type, (struct spot){ part.target, part.depth + 1 });
    maker->bound = outside;
    for (size_t i = 0; i < arguments; i++)
        put_fitting(maker, types[i], part);
}

/* Counts up or down from its start to its end, one at a time. */
struct loop {
    bool down;
    uint32_t start;
    uint32_t end;
};

/* The end lies so few turns away, and no count goes past either edge. */
static struct loop some_loop(struct maker *maker)
{
    struct loop loop = { .down = one_in(maker, COUNT_DOWN_ODDS) };
    uint32_t turns = (uint32_t)below(maker, TURNS_MOST + 1);

    loop.start = some_number(maker);
    if (loop.down && loop.start < turns)
        loop.start = turns;
    if (!loop.down && loop.start > UINT32_MAX - turns)
        loop.start = UINT32_MAX - turns;
    loop.end = loop.down ? loop.start - turns : loop.start + turns;
    return loop;
}

/* Whether the loop goes on: counting up it is below its end, else above. */
static void put_loop_test(struct maker *maker, struct loop loop)
{
    put_kind(maker->sink, KIND_OPERATION, OPERATION_LESS);
    if (loop.down)
        put_number(maker->sink, loop.end);
    put_kind(maker->sink, KIND_VARIABLE, LOOP_COUNT);
    if (!loop.down)
        put_number(maker->sink, loop.end);
}

/* The function again, with a new sum and the next count. */
static void put_loop_turn(struct maker *maker, struct loop loop,
                          struct spot changed_by)
{
    put_kind(maker->sink, KIND_CALL, LOOP_ARGUMENTS);
    put_kind(maker->sink, KIND_VARIABLE, LOOP_ITSELF);
    put_kind(maker->sink, KIND_OPERATION, below(maker, OPERATION_LESS));
    put_kind(maker->sink, KIND_VARIABLE, LOOP_SUM);
    put_fitting(maker, NUMERIC, changed_by);
    put_kind(maker->sink, KIND_OPERATION,
             loop.down ? OPERATION_SUBTRACT : OPERATION_ADD);
    put_kind(maker->sink, KIND_VARIABLE, LOOP_COUNT);
    put_number(maker->sink, 1);
}

/* A recursive function that changes a sum with each count, then gives it. */
static void put_loop(struct maker *maker, struct spot spot)
{
    const size_t arms = 2;
    struct loop loop = some_loop(maker);
    size_t outside = maker->bound;
    struct spot part = part_of(spot, LOOP_ARGUMENTS);
    struct spot changed_by = { part.target, spot.depth + LOOP_LEVELS - 1 };

    put_kind(maker->sink, KIND_CALL, LOOP_ARGUMENTS);
    put_kind(maker->sink, KIND_RECURSIVE, LOOP_ARGUMENTS);
    bind_variables(maker, FOREIGN, 1);
    bind_variables(maker, NUMERIC, LOOP_ARGUMENTS);
    put_kind(maker->sink, KIND_MATCH, arms);
    put_loop_test(maker, loop);
    put_two(maker->sink, KIND_ARM, TAG_NOT_LESS, 0);
    put_kind(maker->sink, KIND_VARIABLE, LOOP_SUM);
    put_two(maker->sink, KIND_ARM, TAG_LESS, 0);
    put_loop_turn(maker, loop, changed_by);
    maker->bound = outside;
    put_fitting(maker, NUMERIC, part);
    put_number(maker->sink, loop.start);
}

void put_numeric_form(struct maker *maker, size_t type, struct spot spot)
{
    bool loop = type == NUMERIC && one_in(maker, LOOP_ODDS);

    if (loop && spot.depth + LOOP_LEVELS <= maker->leaf_depth)
        put_loop(maker, spot);
    else if (one_in(maker, 2) &&
             spot.depth + CALL_LEVELS < maker->leaf_depth)
        put_numeric_call(maker, type, spot);
    else
        put_less_match(maker, type, spot);
}
