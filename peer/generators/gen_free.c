#include "gen_free.h"

#include "gen_arms.h"
#include "gen_numeric.h"
#include "gen_record.h"

/* One in so many is the rarer choice. */
enum {
    LEAF_CONSTRUCTOR_ODDS = 3,
    FREE_RECURSIVE_ODDS = 2
};

/* A leaf at the edge names the outermost variable but for two in so many. */
enum edge { EDGE_PAST_BOUND, EDGE_LAST_NAME, EDGES = 20 };

static void put_free_leaf(struct maker *maker)
{
    if (chooses_number(maker))
        put_some_number(maker);
    else if (maker->bound > 0 && !one_in(maker, LEAF_CONSTRUCTOR_ODDS))
        put_kind(maker->sink, KIND_VARIABLE, below(maker, nameable(maker)));
    else
        put_two(maker->sink, KIND_CONSTRUCTOR, below(maker, FITTING_TAGS), 0);
}

/* A variable just within the number bound, just past it, or the last named. */
static void put_edge_leaf(struct maker *maker)
{
    size_t edge = below(maker, EDGES);
    size_t index = nameable(maker);

    if (edge > EDGE_LAST_NAME && index == 0) {
        put_free_leaf(maker);
        return;
    }
    if (edge == EDGE_LAST_NAME || index > LOW_BYTE_MOST)
        index = LOW_BYTE_MOST;
    else if (edge != EDGE_PAST_BOUND)
        index--;
    put_kind(maker->sink, KIND_VARIABLE, index);
}

static void put_free_function(struct maker *maker, struct spot spot)
{
    size_t outside = maker->bound;
    size_t arguments = count_for_spot(maker, ARGUMENTS_MOST, spot);
    bool recursive = one_in(maker, FREE_RECURSIVE_ODDS);

    put_kind(maker->sink, recursive ? KIND_RECURSIVE : KIND_FUNCTION,
             arguments);
    bind_variables(maker, DATA, arguments + (recursive ? 1 : 0));
    put_free(maker, part_of(spot, 1));
    maker->bound = outside;
}

static void put_free_call(struct maker *maker, struct spot spot)
{
    size_t parts = count_for_spot(maker, ARGUMENTS_MOST, spot) + 1;

    put_kind(maker->sink, KIND_CALL, parts - 1);
    for (size_t i = 0; i < parts; i++)
        put_free(maker, part_of(spot, parts));
}

static void put_free_let(struct maker *maker, struct spot spot)
{
    put_kind(maker->sink, KIND_LET, 0);
    put_free(maker, part_of(spot, 2));
    bind_variables(maker, DATA, 1);
    put_free(maker, part_of(spot, 2));
    maker->bound--;
}

static void put_free_constructor(struct maker *maker, struct spot spot)
{
    size_t arguments = count_for_spot(maker, ARGUMENTS_MOST, spot);

    put_two(maker->sink, KIND_CONSTRUCTOR, below(maker, LOW_BYTE_MOST + 1),
            arguments);
    for (size_t i = 0; i < arguments; i++)
        put_free(maker, part_of(spot, arguments));
}

static void put_free_match(struct maker *maker, struct spot spot)
{
    size_t outside = maker->bound;
    size_t count = count_for_spot(maker, ARMS_MOST, spot);
    struct arms arms = { .count = 0 };

    put_kind(maker->sink, KIND_MATCH, count);
    put_free(maker, part_of(spot, count + 1));
    for (size_t i = 0; i < count; i++) {
        size_t arity = below(maker, ARGUMENTS_MOST + 1);
        size_t tag = below(maker, FITTING_TAGS);

        begin_arm(maker, &arms, (struct arm){ tag, arity });
        put_free(maker, part_of(spot, count + 1));
        maker->bound = outside;
    }
}

static void put_free_operation(struct maker *maker, struct spot spot)
{
    put_kind(maker->sink, KIND_OPERATION, below(maker, OPERATION_LESS + 1));
    for (size_t i = 0; i < OPERATION_PARTS; i++)
        put_free(maker, part_of(spot, OPERATION_PARTS));
}

static void put_free_choice(struct maker *maker, struct spot spot)
{
    static void (*const choices[])(struct maker *, struct spot) = {
        put_free_function, put_free_call, put_free_let, put_free_constructor,
        put_free_match
    };

    choices[below(maker, sizeof choices / sizeof choices[0])](maker, spot);
}

void put_free(struct maker *maker, struct spot spot)
{
    if (!is_leaf_spot(maker, spot) && chooses_number(maker))
        put_free_operation(maker, spot);
    else if (!is_leaf_spot(maker, spot))
        put_free_choice(maker, spot);
    else if (maker->edge_odds > 0 && one_in(maker, maker->edge_odds))
        put_edge_leaf(maker);
    else
        put_free_leaf(maker);
}
