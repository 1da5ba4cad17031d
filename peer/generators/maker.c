#include "maker.h"

#include <assert.h>

enum { FIRST_SHIFT = 13, SECOND_SHIFT = 17, THIRD_SHIFT = 5 };

enum { LARGE_COUNT_FOR_SPOT_ODDS = 3 };

/* One step of splitmix64, so that neighbouring numbers share nothing. */
uint32_t state_of(uint32_t seed, size_t number)
{
    const int seed_shift = 32;
    uint64_t mixed = ((uint64_t)seed << seed_shift) + number;

    mixed += 0x9E3779B97F4A7C15u;
    mixed = (mixed ^ mixed >> 30) * 0xBF58476D1CE4E5B9u;
    mixed = (mixed ^ mixed >> 27) * 0x94D049BB133111EBu;
    mixed ^= mixed >> 31;
    return (uint32_t)mixed == 0 ? 1 : (uint32_t)mixed;
}

struct maker maker_into(struct word_sink *sink, uint32_t state)
{
    return (struct maker){ .sink = sink,
                           .state = state,
                           .leaf_depth = LEAF_DEPTH };
}

uint32_t next_random(struct maker *maker)
{
    maker->state ^= maker->state << FIRST_SHIFT;
    maker->state ^= maker->state >> SECOND_SHIFT;
    maker->state ^= maker->state << THIRD_SHIFT;
    return maker->state;
}

size_t below(struct maker *maker, size_t count)
{
    return next_random(maker) % count;
}

size_t from_to(struct maker *maker, size_t least, size_t most)
{
    return least + below(maker, most - least + 1);
}

bool one_in(struct maker *maker, size_t count)
{
    return below(maker, count) == 0;
}

bool chooses_number(struct maker *maker)
{
    return maker->number_odds > 0 && one_in(maker, maker->number_odds);
}

static size_t lesser(size_t one, size_t other)
{
    return one < other ? one : other;
}

size_t some_count(struct maker *maker, size_t large_odds, size_t most)
{
    bool large = one_in(maker, large_odds);

    return from_to(maker, 1, large ? most : lesser(most, SMALL_COUNT_MOST));
}

size_t count_for_spot(struct maker *maker, size_t most, struct spot spot)
{
    return some_count(maker, LARGE_COUNT_FOR_SPOT_ODDS,
                      lesser(most, spot.target / TARGET_LEAST));
}

struct spot part_of(struct spot spot, size_t parts)
{
    return (struct spot){ (spot.target - 1) / parts, spot.depth + 1 };
}

bool is_leaf_spot(const struct maker *maker, struct spot spot)
{
    return spot.target < TARGET_LEAST || spot.depth >= maker->leaf_depth;
}

void bind_variables(struct maker *maker, size_t type, size_t times)
{
    assert(maker->bound + times <= VARIABLES_MOST);
    for (; times > 0; times--)
        maker->types[maker->bound++] = (uint8_t)type;
}

size_t nameable(const struct maker *maker)
{
    const size_t names = LOW_BYTE_MOST + 1;

    return lesser(maker->bound, names);
}
