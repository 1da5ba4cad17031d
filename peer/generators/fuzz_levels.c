#include "fuzz_levels.h"

#include "gen_arms.h"
#include "gen_fitting.h"
#include "gen_free.h"
#include "gen_record.h"

enum { LARGE_COUNT_ODDS = 8, RECURSIVE_ODDS = 3 };

/* One level: a head, and which of its parts is the inner level. */
struct level {
    enum kind kind;
    size_t low;
    size_t parts;
    size_t inner;
    size_t let_type; /* of what a let binds */
    struct place place;
    struct arms arms; /* a match's, so far */
};

static enum kind function_kind(struct maker *maker)
{
    return one_in(maker, RECURSIVE_ODDS) ? KIND_RECURSIVE : KIND_FUNCTION;
}

/* Each type has kinds of its own besides lets and matches. */
static enum kind fitting_kind(struct maker *maker, size_t type)
{
    enum { CHOICES = 4 };
    static const enum kind of_data[CHOICES] = { KIND_LET, KIND_MATCH,
                                                KIND_CONSTRUCTOR, KIND_CALL };
    static const enum kind of_numbers[CHOICES] = {
        KIND_LET, KIND_MATCH, KIND_OPERATION, KIND_OPERATION
    };
    static const enum kind of_functions[CHOICES] = {
        KIND_LET, KIND_MATCH, KIND_FUNCTION, KIND_FUNCTION
    };
    size_t choice = below(maker, CHOICES);

    if (type == DATA)
        return of_data[choice];
    if (type == NUMERIC)
        return of_numbers[choice];
    return of_functions[choice] == KIND_FUNCTION ? function_kind(maker)
                                                 : of_functions[choice];
}

static enum kind free_kind(struct maker *maker)
{
    if (chooses_number(maker))
        return KIND_OPERATION;
    return from_to(maker, KIND_FUNCTION, KIND_MATCH);
}

static size_t argument_count(struct maker *maker)
{
    return some_count(maker, LARGE_COUNT_ODDS, ARGUMENTS_MOST);
}

/* A fitting constructor's tag is its number of arguments. */
static void choose_parts(struct maker *maker, bool fitting,
                         struct level *level)
{
    switch (level->kind) {
    case KIND_CALL:
        level->low = argument_count(maker);
        level->parts = level->low + 1;
        return;
    case KIND_LET:
        level->parts = 2;
        return;
    case KIND_OPERATION: /* less gives no number */
        level->low = below(maker, fitting ? OPERATION_LESS
                                          : OPERATION_LESS + 1);
        level->parts = OPERATION_PARTS;
        return;
    case KIND_CONSTRUCTOR:
        level->parts = fitting ? from_to(maker, 1, FITTING_TAGS - 1)
                               : argument_count(maker);
        level->low = fitting ? level->parts : below(maker, LOW_BYTE_MOST + 1);
        return;
    case KIND_MATCH:
        level->low = fitting ? (size_t)FITTING_TAGS
                             : some_count(maker, LARGE_COUNT_ODDS, ARMS_MOST);
        level->parts = level->low + 1;
        return;
    default:
        level->low = fitting ? level->place.type : argument_count(maker);
        level->parts = 1;
        return;
    }
}

static struct level choose_level(struct maker *maker,
                                 const struct levels *levels,
                                 struct place place)
{
    struct level level = { .place = place };

    level.kind = levels->fitting ? fitting_kind(maker, place.type)
                                 : free_kind(maker);
    choose_parts(maker, levels->fitting, &level);
    level.let_type = some_type(maker);
    level.inner = levels->last ? level.parts - 1 : below(maker, level.parts);
    return level;
}

static size_t type_of_part(const struct level *level, size_t part)
{
    if (level->kind == KIND_CALL && part == 0)
        return level->low;
    if (level->kind == KIND_LET && part == 0)
        return level->let_type;
    if (level->kind == KIND_OPERATION)
        return NUMERIC;
    if (part > 0 && (level->kind == KIND_LET || level->kind == KIND_MATCH))
        return level->place.type;
    return DATA;
}

static void enter_arm(struct maker *maker, bool fitting, struct arms *arms)
{
    size_t tag = fitting ? arms->count : below(maker, FITTING_TAGS);
    size_t arity = fitting ? arms->count : below(maker, ARGUMENTS_MOST + 1);

    begin_arm(maker, arms, (struct arm){ tag, arity });
}

/* Writes what stands before a part and binds what is bound in it. */
static void enter_part(struct maker *maker, const struct levels *levels,
                       struct level *level, size_t part)
{
    switch (level->kind) {
    case KIND_FUNCTION:
    case KIND_RECURSIVE:
        bind_variables(maker, level->low, level->kind == KIND_RECURSIVE);
        bind_variables(maker, DATA, level->low);
        return;
    case KIND_LET:
        bind_variables(maker, level->let_type, part);
        return;
    case KIND_MATCH:
        if (part > 0)
            enter_arm(maker, levels->fitting, &level->arms);
        return;
    default:
        return;
    }
}

void put_beside(struct maker *maker, const struct levels *levels,
                struct place place)
{
    struct spot spot = { from_to(maker, 1, levels->beside_most), place.depth };

    if (levels->fitting)
        put_fitting(maker, place.type, spot);
    else
        put_free(maker, spot);
}

void put_levels(struct maker *maker, const struct levels *levels,
                struct place place, size_t count)
{
    if (count == 0) {
        levels->put_ending(maker, levels, place);
        return;
    }
    size_t outside = maker->bound;
    struct level level = choose_level(maker, levels, place);

    put_kind(maker->sink, level.kind, level.low);
    if (level.kind == KIND_CONSTRUCTOR)
        put_word(maker->sink, (uint16_t)level.parts);
    for (size_t i = 0; i < level.parts; i++) {
        struct place part = { type_of_part(&level, i), place.depth + 1 };

        enter_part(maker, levels, &level, i);
        if (i == level.inner)
            put_levels(maker, levels, part, count - 1);
        else
            put_beside(maker, levels, part);
        maker->bound = outside;
    }
}
