#include "gen_fitting.h"

#include "gen_arms.h"
#include "gen_numeric.h"
#include "gen_record.h"

enum { OTHER_ARMS_MOST = 2 };

/* One in so many is the rarer choice. */
enum {
    FITTING_RECURSIVE_ODDS = 4,
    DATA_ODDS = 2,
    LARGE_TYPE_ODDS = 6,
    CONSTANT_ODDS = 3,
    FORM_ODDS = 3,
    NEW_TAG_ODDS = 2,
    WRITTEN_NUMBER_ODDS = 3
};

enum fitting_choice {
    CHOOSE_LET,
    CHOOSE_MATCH,
    CHOOSE_CONSTRUCTOR,
    CHOOSE_CALL,
    CHOOSE_CALL_TOO,
    FITTING_CHOICES
};

/* The number of nameable variables where there is none of that type. */
static size_t variable_of_type(struct maker *maker, size_t type)
{
    size_t names = nameable(maker);
    size_t start = names > 0 ? below(maker, names) : 0;

    for (size_t i = 0; i < names; i++) {
        size_t index = (start + i) % names;

        if (maker->types[maker->bound - 1 - index] == type)
            return index;
    }
    return names;
}

static enum kind function_kind(struct maker *maker)
{
    return one_in(maker, FITTING_RECURSIVE_ODDS) ? KIND_RECURSIVE
                                                 : KIND_FUNCTION;
}

/* Most often it gives one of its arguments back. */
static void put_leaf_function(struct maker *maker, size_t type)
{
    put_kind(maker->sink, function_kind(maker), type);
    if (one_in(maker, CONSTANT_ODDS))
        put_leaf(maker->sink);
    else
        put_kind(maker->sink, KIND_VARIABLE, below(maker, type));
}

static void put_fitting_leaf(struct maker *maker, size_t type)
{
    size_t index = variable_of_type(maker, type);

    if (index < nameable(maker) &&
        (type != NUMERIC || !one_in(maker, WRITTEN_NUMBER_ODDS)))
        put_kind(maker->sink, KIND_VARIABLE, index);
    else if (type == NUMERIC)
        put_some_number(maker);
    else if (type == DATA)
        put_leaf(maker->sink);
    else
        put_leaf_function(maker, type);
}

size_t some_type(struct maker *maker)
{
    if (chooses_number(maker))
        return NUMERIC;
    return one_in(maker, DATA_ODDS)
               ? (size_t)DATA
               : some_count(maker, LARGE_TYPE_ODDS, ARGUMENTS_MOST);
}

static void put_fitting_function(struct maker *maker, size_t type,
                                 struct spot spot)
{
    size_t outside = maker->bound;
    enum kind kind = function_kind(maker);

    put_kind(maker->sink, kind, type);
    bind_variables(maker, type, kind == KIND_RECURSIVE);
    bind_variables(maker, DATA, type);
    put_fitting(maker, DATA, part_of(spot, 1));
    maker->bound = outside;
}

static void put_fitting_call(struct maker *maker, struct spot spot)
{
    size_t arguments = count_for_spot(maker, ARGUMENTS_MOST, spot);

    put_kind(maker->sink, KIND_CALL, arguments);
    put_fitting(maker, arguments, part_of(spot, arguments + 1));
    for (size_t i = 0; i < arguments; i++)
        put_fitting(maker, DATA, part_of(spot, arguments + 1));
}

static void put_fitting_constructor(struct maker *maker, struct spot spot)
{
    size_t tag = below(maker, FITTING_TAGS);

    put_two(maker->sink, KIND_CONSTRUCTOR, tag, tag);
    for (size_t i = 0; i < tag; i++)
        put_fitting(maker, DATA, part_of(spot, tag));
}

static void put_fitting_let(struct maker *maker, size_t type, struct spot spot)
{
    size_t bound_type = some_type(maker);

    put_kind(maker->sink, KIND_LET, 0);
    put_fitting(maker, bound_type, part_of(spot, 2));
    bind_variables(maker, bound_type, 1);
    put_fitting(maker, type, part_of(spot, 2));
    maker->bound--;
}

static size_t other_arity(struct maker *maker, size_t arity)
{
    size_t other = below(maker, ARGUMENTS_MOST);

    return other < arity ? other : other + 1;
}

/* An arm that is never taken: of a new tag, or of another arity. */
static struct arm other_arm(struct maker *maker, size_t new_tag)
{
    bool is_new = one_in(maker, NEW_TAG_ODDS);
    size_t tag = is_new ? new_tag : below(maker, FITTING_TAGS);

    return (struct arm){ tag, other_arity(maker, tag) };
}

/* An arm for every tag; perhaps arms before and behind these. */
static void put_fitting_match(struct maker *maker, size_t type,
                              struct spot spot)
{
    size_t others = below(maker, OTHER_ARMS_MOST + 1);
    size_t first = below(maker, others + 1);
    size_t count = FITTING_TAGS + others;
    size_t outside = maker->bound;
    struct arms arms = { .count = 0 };

    put_kind(maker->sink, KIND_MATCH, count);
    put_fitting(maker, DATA, part_of(spot, count + 1));
    for (size_t i = 0; i < count; i++) {
        bool taken = i >= first && i < first + FITTING_TAGS;
        struct arm arm = taken ? (struct arm){ i - first, i - first }
                               : other_arm(maker, FITTING_TAGS + i);

        begin_arm(maker, &arms, arm);
        put_fitting(maker, type, part_of(spot, count + 1));
        maker->bound = outside;
    }
}

/* Of any arity; no match but its own meets it. */
static struct arm some_form(struct maker *maker, struct spot spot)
{
    size_t tag = from_to(maker, FITTING_TAGS, LOW_BYTE_MOST);

    return (struct arm){ tag, count_for_spot(maker, ARGUMENTS_MOST, spot) };
}

/* What an arm has bound last, one type for each variable. */
static void set_last_types(struct maker *maker, const size_t *types,
                           size_t count)
{
    for (size_t i = 0; i < count; i++)
        maker->types[maker->bound - count + i] = (uint8_t)types[i];
}

/* A constructor's arguments of these types, drawn one after the other. */
static void put_typed_arguments(struct maker *maker, size_t *types,
                                size_t count, struct spot spot)
{
    for (size_t i = 0; i < count; i++) {
        types[i] = chooses_number(maker) ? NUMERIC : DATA;
        put_fitting(maker, types[i], spot);
    }
}

/* A constructor and its arm; perhaps arms for other forms of its tag. */
static void put_form_match(struct maker *maker, size_t type, struct spot spot)
{
    struct arm form = some_form(maker, spot);
    size_t others = below(maker, OTHER_ARMS_MOST + 1);
    size_t place = below(maker, others + 1);
    size_t outside = maker->bound;
    struct spot part = part_of(spot, others + 2);
    struct spot argument = { part.target / form.arity, part.depth + 1 };
    struct arms arms = { .count = 0 };
    size_t types[ARGUMENTS_MOST];

    put_kind(maker->sink, KIND_MATCH, others + 1);
    put_two(maker->sink, KIND_CONSTRUCTOR, form.tag, form.arity);
    put_typed_arguments(maker, types, form.arity, argument);
    for (size_t i = 0; i <= others; i++) {
        size_t arity =
            i == place ? form.arity : other_arity(maker, form.arity);

        begin_arm(maker, &arms, (struct arm){ form.tag, arity });
        /* An arm that was made dead may have another arity. */
        if (i == place && maker->bound == outside + arity)
            set_last_types(maker, types, arity);
        put_fitting(maker, type, part);
        maker->bound = outside;
    }
}

static void put_fitting_choice(struct maker *maker, size_t type,
                               struct spot spot)
{
    switch (below(maker, FITTING_CHOICES)) {
    case CHOOSE_LET:
        put_fitting_let(maker, type, spot);
        return;
    case CHOOSE_MATCH:
        if (one_in(maker, FORM_ODDS))
            put_form_match(maker, type, spot);
        else
            put_fitting_match(maker, type, spot);
        return;
    case CHOOSE_CONSTRUCTOR:
        if (type == DATA) {
            put_fitting_constructor(maker, spot);
            return;
        }
        break;
    default:
        break;
    }
    if (type == DATA)
        put_fitting_call(maker, spot);
    else if (type == NUMERIC)
        put_numeric_operation(maker, spot);
    else
        put_fitting_function(maker, type, spot);
}

void put_fitting(struct maker *maker, size_t type, struct spot spot)
{
    if (is_leaf_spot(maker, spot))
        put_fitting_leaf(maker, type);
    else if (chooses_number(maker))
        put_numeric_form(maker, type, spot);
    else
        put_fitting_choice(maker, type, spot);
}
