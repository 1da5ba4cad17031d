#include "fuzz_shapes.h"

#include "fuzz_levels.h"
#include "fuzz_wide.h"
#include "gen_fitting.h"
#include "gen_free.h"
#include "gen_random.h"

enum {
    DEEP_LEVELS_LEAST = RULE_DEPTH_MOST - 9,
    DEEP_LEVELS_MOST = RULE_DEPTH_MOST + 6,
    NEAR_LEVELS_LEAST = RULE_DEPTH_MOST - 2,
    NEAR_LEVELS_MOST = RULE_DEPTH_MOST + 1,
    DEEP_BESIDE_MOST = 6,
    /* A deep rule's small terms end at the last depth or next to it. */
    DEEP_LEAF_DEPTH_LEAST = RULE_DEPTH_MOST - 1,
    DEEP_LEAF_DEPTH_MOST = RULE_DEPTH_MOST + 1
};

enum { WIDE_LEVELS_MOST = 4, WIDE_BESIDE_MOST = 5 };

/* From just below to just above 256 variables, as many as have names. */
enum {
    NAMES = LOW_BYTE_MOST + 1,
    TOWER_ARGUMENTS_LEAST = ARGUMENTS_MOST - 1,
    TOWER_LEVELS_LEAST = NAMES / ARGUMENTS_MOST - 1,
    TOWER_LEVELS_MOST = NAMES / TOWER_ARGUMENTS_LEAST + 1,
    EDGE_TARGET_MOST = 60
};

enum {
    ATOM_LEVELS_MOST = 4,
    ATOM_BESIDE_MOST = 6,
    ATOM_ARGUMENTS_MOST = 3,
    ATOM_NESTING = 4
};

enum { NUMERIC_TARGET_MOST = 80 };

enum {
    LONG_WORDS_LEAST = 1000,
    LONG_WORDS_MOST = RULE_WORDS_MOST + 104,
    NEAR_THE_MOST = 3,
    LONG_LEVELS_LEAST = 10,
    LONG_LEVELS_MOST = 50,
    LONG_BESIDE_MOST = 60
};

/* One in so many is the rarer choice. */
enum {
    FREE_ODDS = 2,
    NEAR_LEVELS_ODDS = 2,
    LAST_PART_ODDS = 2,
    DEAD_WIDE_ODDS = 6,
    TOWER_ODDS = 2,
    EDGE_ODDS = 4,
    RECURSIVE_ODDS = 8,
    MANY_ARGUMENTS_ODDS = 8,
    NEAR_THE_MOST_ODDS = 2
};

static struct place whole_rule(struct maker *maker)
{
    return (struct place){ chooses_number(maker) ? NUMERIC : DATA, 1 };
}

/* At depth 65 the tests before 6 and after it are to be met as well. */
enum ending { ENDING_NOTHING, ENDING_WORD, ENDING_HEAD, ENDINGS = 8 };

static void put_deep_ending(struct maker *maker, const struct levels *levels,
                            struct place place)
{
    uint16_t word = (uint16_t)next_random(maker);
    size_t kind = chooses_number(maker)
                      ? from_to(maker, KIND_NUMBER, KIND_OPERATION)
                      : from_to(maker, KIND_VARIABLE, KIND_MATCH);

    switch (below(maker, ENDINGS)) {
    case ENDING_NOTHING:
        break;
    case ENDING_WORD:
        put_word(maker->sink, word);
        break;
    case ENDING_HEAD:
        put_kind(maker->sink, kind, word_low(word));
        break;
    default:
        put_beside(maker, levels, place);
        break;
    }
}

static size_t deep_levels(struct maker *maker)
{
    return one_in(maker, NEAR_LEVELS_ODDS)
               ? from_to(maker, NEAR_LEVELS_LEAST, NEAR_LEVELS_MOST)
               : from_to(maker, DEEP_LEVELS_LEAST, DEEP_LEVELS_MOST);
}

void put_deep(struct maker *maker, struct record *record)
{
    struct levels levels = { .beside_most = DEEP_BESIDE_MOST,
                             .put_ending = put_deep_ending };

    /* One by one: what stands in an initialiser has no fixed order in C. */
    levels.fitting = !one_in(maker, FREE_ODDS);
    levels.last = one_in(maker, LAST_PART_ODDS);
    maker->leaf_depth =
        from_to(maker, DEEP_LEAF_DEPTH_LEAST, DEEP_LEAF_DEPTH_MOST);
    start_record(record);
    struct place place = whole_rule(maker);
    put_levels(maker, &levels, place, deep_levels(maker));
}

void put_wide(struct maker *maker, struct record *record)
{
    struct levels levels = { .fitting = !one_in(maker, FREE_ODDS),
                             .beside_most = WIDE_BESIDE_MOST,
                             .put_ending = put_wide_term };

    if (one_in(maker, DEAD_WIDE_ODDS))
        maker->dead_odds = ARMS_MOST; /* so that late arms are dead too */
    start_record(record);
    struct place place = whole_rule(maker);
    put_levels(maker, &levels, place, below(maker, WIDE_LEVELS_MOST + 1));
}

void put_edges(struct maker *maker, struct record *record)
{
    struct spot spot = { from_to(maker, 1, EDGE_TARGET_MOST), 1 };

    maker->edge_odds = EDGE_ODDS;
    start_record(record);
    if (one_in(maker, TOWER_ODDS))
        spot.depth +=
            from_to(maker, TOWER_LEVELS_LEAST, TOWER_LEVELS_MOST);
    for (size_t depth = 1; depth < spot.depth; depth++) {
        bool recursive = one_in(maker, RECURSIVE_ODDS);
        size_t arguments =
            from_to(maker, TOWER_ARGUMENTS_LEAST, ARGUMENTS_MOST);

        put_kind(maker->sink, recursive ? KIND_RECURSIVE : KIND_FUNCTION,
                 arguments);
        bind_variables(maker, DATA, arguments + recursive);
    }
    put_free(maker, spot);
}

/* An argument is most often a constructor again. */
enum argument { ARGUMENT_SMALL, ARGUMENT_UNFINISHED, ARGUMENTS = 5 };

static void put_nested(struct maker *maker, const struct levels *small,
                       size_t depth, size_t nesting)
{
    bool many = one_in(maker, MANY_ARGUMENTS_ODDS);
    size_t arguments =
        below(maker, (many ? ARGUMENTS_MOST : ATOM_ARGUMENTS_MOST) + 1);

    put_two(maker->sink, KIND_CONSTRUCTOR, arguments, arguments);
    for (; arguments > 0; arguments--) {
        size_t choice = below(maker, ARGUMENTS);
        struct place place = { some_type(maker), depth + 1 };

        if (choice == ARGUMENT_UNFINISHED)
            put_levels(maker, small, place, 1);
        else if (choice == ARGUMENT_SMALL || nesting == 0)
            put_beside(maker, small, place);
        else
            put_nested(maker, small, depth + 1, nesting - 1);
    }
}

static void put_small_ending(struct maker *maker, const struct levels *levels,
                             struct place place)
{
    put_beside(maker, levels, place);
}

static void put_atoms_ending(struct maker *maker, const struct levels *levels,
                             struct place place)
{
    struct levels small = *levels;

    small.put_ending = put_small_ending;
    put_nested(maker, &small, place.depth, ATOM_NESTING);
}

void put_atoms(struct maker *maker, struct record *record)
{
    struct levels levels = { .fitting = !one_in(maker, FREE_ODDS),
                             .beside_most = ATOM_BESIDE_MOST,
                             .put_ending = put_atoms_ending };

    start_record(record);
    struct place place = whole_rule(maker);
    put_levels(maker, &levels, place, below(maker, ATOM_LEVELS_MOST + 1));
}

void put_numeric(struct maker *maker, struct record *record)
{
    if (maker->number_odds == 0) {
        put_well_formed(maker, record);
        return;
    }
    start_record(record);
    put_fitting(maker, NUMERIC,
                (struct spot){ from_to(maker, TARGET_LEAST,
                                       NUMERIC_TARGET_MOST),
                               1 });
}

/* The words go to the length exactly, where the levels have left that many. */
static void put_filler_ending(struct maker *maker, const struct levels *levels,
                              struct place place)
{
    size_t count = maker->sink->count;

    (void)place;
    if (count + FILLER_WORDS_LEAST < levels->words)
        put_filler(maker->sink, levels->words - count);
    else
        put_leaf(maker->sink);
}

static size_t long_length(struct maker *maker)
{
    return one_in(maker, NEAR_THE_MOST_ODDS)
               ? from_to(maker, RULE_WORDS_MOST - NEAR_THE_MOST,
                         RULE_WORDS_MOST + NEAR_THE_MOST)
               : from_to(maker, LONG_WORDS_LEAST, LONG_WORDS_MOST);
}

void put_long(struct maker *maker, struct record *record)
{
    struct levels levels = { .last = true,
                             .beside_most = LONG_BESIDE_MOST,
                             .put_ending = put_filler_ending };

    levels.fitting = !one_in(maker, FREE_ODDS);
    levels.words = long_length(maker);
    struct place place = whole_rule(maker);
    do {
        start_record(record);
        put_levels(maker, &levels, place,
                   from_to(maker, LONG_LEVELS_LEAST, LONG_LEVELS_MOST));
    } while (record->sink.count > LONG_WORDS_MOST);
}
