#include "value.h"

enum { CLOSED_DEPTH_MOST = 8192 };

struct closing {
    struct arena *arena;
    enum layout layout;
};

static const struct term *close_value(const struct closing *closing,
                                      const struct value *value, size_t depth);

const struct binding *bind_value(struct arena *arena,
                                 const struct value *value,
                                 const struct binding *outer)
{
    struct binding *binding = arena_take(arena, sizeof *binding);

    *binding = (struct binding){ value, outer };
    return binding;
}

const struct value *constructor_value(struct arena *arena,
                                      const struct term *constructor,
                                      const struct value **arguments)
{
    struct value *value = arena_take(arena, sizeof *value);

    *value = (struct value){ .term = constructor, .arguments = arguments };
    return value;
}

const struct value *number_value(struct arena *arena, uint32_t number)
{
    struct term *term = term_with_parts(
        arena, (struct term){ .kind = KIND_NUMBER, .number = number });
    struct value *value = arena_take(arena, sizeof *value);

    settle_atom(term);
    *value = (struct value){ .term = term };
    return value;
}

static const struct value *function_value(struct arena *arena,
                                          const struct term *function,
                                          struct environment environment)
{
    struct value *value = arena_take(arena, sizeof *value);

    *value =
        (struct value){ .term = function, .environment = environment };
    return value;
}

static const struct value *look_up(const struct binding *binding, size_t index)
{
    while (index-- > 0)
        binding = binding->outer;
    return binding->value;
}

const struct value *value_of_atom(struct arena *arena, const struct term *atom,
                                  struct environment environment)
{
    if (atom->kind == KIND_VARIABLE)
        return look_up(environment.source, atom->low);
    if (atom->kind == KIND_CONTINUATION)
        return look_up(environment.continuation, atom->low);
    if (atom->kind == KIND_NUMBER)
        return number_value(arena, atom->number);
    if (atom->kind != KIND_CONSTRUCTOR)
        return function_value(arena, atom, environment);

    const struct value **arguments =
        arena_take(arena, atom->part_count * sizeof arguments[0]);
    for (size_t i = 0; i < atom->part_count; i++)
        arguments[i] = value_of_atom(arena, atom->parts[i], environment);
    return constructor_value(arena, atom, arguments);
}

/* The value put in for a variable that is bound outside the closed term. */
static const struct value *put_in_for(const struct term *term,
                                      struct environment environment,
                                      struct scope bound_inside)
{
    if (term->kind == KIND_VARIABLE && term->low >= bound_inside.source)
        return look_up(environment.source, term->low - bound_inside.source);
    if (term->kind == KIND_CONTINUATION &&
        term->low >= bound_inside.continuation)
        return look_up(environment.continuation,
                       term->low - bound_inside.continuation);
    return NULL;
}

static const struct term *close_term(const struct closing *closing,
                                     const struct term *term,
                                     struct environment environment,
                                     struct scope bound_inside, size_t depth)
{
    const struct value *value = put_in_for(term, environment, bound_inside);

    if (value != NULL)
        return close_value(closing, value, depth);
    if (depth > CLOSED_DEPTH_MOST || arena_is_spent(closing->arena))
        return NULL;
    struct term *closed = term_with_parts(closing->arena, *term);
    for (size_t i = 0; i < term->part_count; i++) {
        struct scope inside =
            scope_of_part(closing->layout, term, i, bound_inside);

        closed->parts[i] = close_term(closing, term->parts[i], environment,
                                      inside, depth + 1);
        if (closed->parts[i] == NULL)
            return NULL;
    }
    settle_atom(closed);
    return closed;
}

static const struct term *close_constructor(const struct closing *closing,
                                            const struct value *value,
                                            size_t depth)
{
    const struct term *term = value->term;

    if (depth > CLOSED_DEPTH_MOST || arena_is_spent(closing->arena))
        return NULL;
    struct term *closed = term_with_parts(closing->arena, *term);
    for (size_t i = 0; i < closed->part_count; i++) {
        closed->parts[i] =
            close_value(closing, value->arguments[i], depth + 1);
        if (closed->parts[i] == NULL)
            return NULL;
    }
    settle_atom(closed);
    return closed;
}

static const struct term *close_value(const struct closing *closing,
                                      const struct value *value, size_t depth)
{
    const struct scope nothing_bound = { 0, 0 };

    if (value->term->kind == KIND_CONSTRUCTOR)
        return close_constructor(closing, value, depth);
    return close_term(closing, value->term, value->environment, nothing_bound,
                      depth);
}

const struct term *term_of_value(struct arena *arena, enum layout layout,
                                 const struct value *value)
{
    const struct closing closing = { arena, layout };

    return close_value(&closing, value, 1);
}
