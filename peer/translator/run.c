#include "run.h"

#include <stdbool.h>

#include "value.h"

struct run {
    struct arena *arena;
    enum layout layout;
    size_t steps_left;
    size_t depth_left;
    bool gave_up;
    struct counts counts;
};

/* What still has to come to a value; the value is NULL until it has. */
struct task {
    const struct term *term;
    struct environment environment;
    const struct value *value;
};

static const struct value *come_to_value(struct run *run,
                                         const struct term *term,
                                         struct environment environment);

/* "Parts come to values in the order of their words." */
static const struct value **come_to_values(struct run *run,
                                           const struct task *task)
{
    size_t count = task->term->part_count;
    const struct value **values =
        arena_take(run->arena, count * sizeof values[0]);

    for (size_t i = 0; i < count; i++) {
        values[i] =
            come_to_value(run, task->term->parts[i], task->environment);
        if (values[i] == NULL)
            return NULL;
    }
    return values;
}

static void bind_source(struct run *run, struct environment *environment,
                        const struct value *value)
{
    environment->source = bind_value(run->arena, value, environment->source);
}

/* "A value comes to itself: one value taken whole." */
static bool take_whole(struct run *run, struct task *task)
{
    run->counts.values++;
    task->value = value_of_atom(run->arena, task->term, task->environment);
    return false;
}

/*
 * "A constructor that is not an atom: each argument comes to a value; the
 * result is the constructor of these"
 */
static bool build_constructor(struct run *run, struct task *task)
{
    const struct value **arguments = come_to_values(run, task);

    if (arguments == NULL)
        return false;
    run->counts.built++;
    task->value = constructor_value(run->arena, task->term, arguments);
    return false;
}

/* "giving tag 1 if so, else tag 0, without arguments" */
static const struct value *less_value(struct run *run, bool is_less)
{
    struct term *answer = term_with_parts(
        run->arena,
        (struct term){ .kind = KIND_CONSTRUCTOR,
                       .low = is_less ? TAG_LESS : TAG_NOT_LESS });

    settle_atom(answer);
    return constructor_value(run->arena, answer, NULL);
}

/* "0 adds, 1 subtracts, both modulo 2 to the 32" */
static const struct value *operation_value(struct run *run, uint8_t operation,
                                           uint32_t first, uint32_t second)
{
    switch (operation) {
    case OPERATION_ADD:
        return number_value(run->arena, first + second);
    case OPERATION_SUBTRACT:
        return number_value(run->arena, first - second);
    default:
        return less_value(run, first < second);
    }
}

/*
 * "An operation on anything but numbers has no value"; as for a call, that is
 * seen after both parts have come to values. "counts as one in demand 3": as a
 * constructor built.
 */
static bool operate(struct run *run, struct task *task)
{
    const struct value **parts = come_to_values(run, task);

    if (parts == NULL || parts[0]->term->kind != KIND_NUMBER ||
        parts[1]->term->kind != KIND_NUMBER)
        return false;
    run->counts.built++;
    task->value =
        operation_value(run, task->term->low, parts[0]->term->number,
                        parts[1]->term->number);
    return false;
}

/* "Let: the bound term's value goes in for x_0 of the body." */
static bool enter_let(struct run *run, struct task *task)
{
    const struct value *bound =
        come_to_value(run, task->term->parts[0], task->environment);

    if (bound == NULL)
        return false;
    run->counts.lets++;
    bind_source(run, &task->environment, bound);
    task->term = task->term->parts[1];
    return true;
}

/* "a function with exactly that many arguments" */
static bool call_fits(const struct value *function, const struct term *call)
{
    return (function->term->kind == KIND_FUNCTION ||
            function->term->kind == KIND_RECURSIVE) &&
           function->term->low == call->low;
}

/*
 * x_0 is the last argument, so it is bound last; a recursive function's own
 * name stands outside its source arguments. "In an image the first argument of
 * a function is k_0."
 */
static struct environment body_environment(struct run *run,
                                           const struct value *function,
                                           const struct value **arguments)
{
    struct environment environment = function->environment;
    size_t first_source = run->layout == LAYOUT_IMAGE ? 1 : 0;

    if (run->layout == LAYOUT_IMAGE)
        environment.continuation =
            bind_value(run->arena, arguments[0], environment.continuation);
    if (function->term->kind == KIND_RECURSIVE)
        bind_source(run, &environment, function);
    for (size_t i = first_source; i < function->term->low; i++)
        bind_source(run, &environment, arguments[i]);
    return environment;
}

/* "whether a call's function fits is seen after its arguments have" */
static bool enter_call(struct run *run, struct task *task)
{
    const struct value **values = come_to_values(run, task);

    if (values == NULL || !call_fits(values[0], task->term))
        return false;
    run->counts.calls++;
    task->environment = body_environment(run, values[0], values + 1);
    task->term = values[0]->term->parts[0];
    return true;
}

/* "the first arm that has both the tag and the arity" */
static const struct term *first_arm(const struct term *match,
                                    const struct term *constructor)
{
    for (size_t i = 1; i < match->part_count; i++) {
        const struct term *arm = match->parts[i];

        if (arm->low == constructor->low &&
            arm->second == constructor->second)
            return arm;
    }
    return NULL;
}

/* "Match: the subject comes to a constructor value." */
static bool enter_match(struct run *run, struct task *task)
{
    const struct value *subject =
        come_to_value(run, task->term->parts[0], task->environment);

    if (subject == NULL || subject->term->kind != KIND_CONSTRUCTOR)
        return false;
    const struct term *arm = first_arm(task->term, subject->term);
    if (arm == NULL)
        return false;
    run->counts.matches++;
    for (size_t i = 0; i < arm->second; i++)
        bind_source(run, &task->environment, subject->arguments[i]);
    task->term = arm->parts[0];
    return true;
}

/* True while the task's term has been replaced by one still to be run. */
static bool advance(struct run *run, struct task *task)
{
    if (run->steps_left == 0 || arena_is_spent(run->arena)) {
        run->gave_up = true;
        return false;
    }
    run->steps_left--;
    if (task->term->atom)
        return take_whole(run, task);
    switch (task->term->kind) {
    case KIND_CONSTRUCTOR:
        return build_constructor(run, task);
    case KIND_OPERATION:
        return operate(run, task);
    case KIND_LET:
        return enter_let(run, task);
    case KIND_CALL:
        return enter_call(run, task);
    case KIND_MATCH:
        return enter_match(run, task);
    default: /* "Nothing else comes to a value." */
        return false;
    }
}

static const struct value *come_to_value(struct run *run,
                                         const struct term *term,
                                         struct environment environment)
{
    struct task task = { term, environment, NULL };

    if (run->depth_left == 0) {
        run->gave_up = true;
        return NULL;
    }
    run->depth_left--;
    while (advance(run, &task))
        continue;
    run->depth_left++;
    return task.value;
}

struct run_result run_term(struct arena *arena, enum layout layout,
                           const struct term *closed, struct bounds bounds)
{
    const struct environment nothing_bound = { NULL, NULL };
    struct run run = { .arena = arena,
                       .layout = layout,
                       .steps_left = bounds.steps,
                       .depth_left = bounds.depth };
    const struct value *value = come_to_value(&run, closed, nothing_bound);
    struct run_result result = { NO_VALUE, NULL, run.counts };

    if (value != NULL)
        result.value = term_of_value(arena, layout, value);
    if (result.value != NULL)
        result.outcome = CAME_TO_VALUE;
    else if (run.gave_up || value != NULL)
        result.outcome = GAVE_UP;
    return result;
}
