#include "image.h"

/*
 * "Inside the inner added function, k_0 is the value and k_1 the
 * continuation."
 */
enum { K_INNERMOST = 0, K_NEXT_OUT = 1, ONE_ARGUMENT = 1 };

static void put_head(struct word_sink *sink, enum kind kind, size_t low)
{
    put_word(sink, head_word(kind, (uint8_t)low));
}

static void put_continuation(struct word_sink *sink, size_t number)
{
    struct continuation_index index = { (uint8_t)number };

    put_word(sink, continuation_word(index));
}

/* 0201: every function the translation adds has one argument. */
static void put_added_function(struct word_sink *sink)
{
    put_head(sink, KIND_FUNCTION, ONE_ARGUMENT);
}

/* 0401 */
static void put_added_call(struct word_sink *sink)
{
    put_head(sink, KIND_CALL, ONE_ARGUMENT);
}

/* 0201 0401 */
static void put_opening(struct word_sink *sink)
{
    put_added_function(sink);
    put_added_call(sink);
}

/* k_(count-1) down to k_0 */
static void put_continuations_down(struct word_sink *sink, size_t count)
{
    while (count > 0)
        put_continuation(sink, --count);
}

/*
 * "A function of a arguments becomes a function of a+1 arguments whose body
 * is 0401, the passing form of its body, 0900; recursive ones likewise."
 */
static void put_carried_function(struct word_sink *sink,
                                 const struct term *function)
{
    put_head(sink, function->kind, (size_t)function->low + 1);
    put_added_call(sink);
    put_passing_form(sink, function->parts[0]);
    put_continuation(sink, K_INNERMOST);
}

/*
 * "A constructor keeps its two words and takes the carried form of each
 * argument."
 */
static void put_carried_constructor(struct word_sink *sink,
                                    const struct term *constructor)
{
    put_own_words(sink, constructor);
    for (size_t i = 0; i < constructor->part_count; i++)
        put_carried_form(sink, constructor->parts[i]);
}

void put_carried_form(struct word_sink *sink, const struct term *atom)
{
    if (sink_has_overflowed(sink))
        return;
    if (atom->kind == KIND_FUNCTION || atom->kind == KIND_RECURSIVE)
        put_carried_function(sink, atom);
    else if (atom->kind == KIND_CONSTRUCTOR)
        put_carried_constructor(sink, atom);
    else if (atom->kind == KIND_NUMBER) /* as a constructor without parts */
        put_own_words(sink, atom);
    else /* "A variable's is itself." */
        put_word(sink, source_word((struct source_index){ atom->low }));
}

/* "Atom: 0201 0401 0900, then its carried form." */
static void put_passing_atom(struct word_sink *sink, const struct term *atom)
{
    put_opening(sink);
    put_continuation(sink, K_INNERMOST);
    put_carried_form(sink, atom);
}

/*
 * "Let: 0201 0401, the bound term's passing form, 0201 0500 0900 0401, the
 * body's passing form, 0901."
 */
static void put_passing_let(struct word_sink *sink, const struct term *let)
{
    put_opening(sink);
    put_passing_form(sink, let->parts[0]);
    put_added_function(sink);
    put_head(sink, KIND_LET, 0);
    put_continuation(sink, K_INNERMOST);
    put_added_call(sink);
    put_passing_form(sink, let->parts[1]);
    put_continuation(sink, K_NEXT_OUT);
}

/*
 * "A chain is, for each of its terms in order, 0201 0401 and the term's
 * passing form; then 0201 and the ending."
 */
static void put_chain_up_to_ending(struct word_sink *sink,
                                   const struct term *whole)
{
    for (size_t i = 0; i < whole->part_count; i++) {
        put_opening(sink);
        put_passing_form(sink, whole->parts[i]);
    }
    put_added_function(sink);
}

/*
 * "ending in a call of n+1 arguments: k_n applied to k_(n+1), then k_(n-1)
 * down to k_0"
 */
static void put_passing_call(struct word_sink *sink, const struct term *call)
{
    size_t arguments = call->low;

    put_chain_up_to_ending(sink, call);
    put_head(sink, KIND_CALL, arguments + 1);
    put_continuation(sink, arguments);
    put_continuation(sink, arguments + 1);
    put_continuations_down(sink, arguments);
}

/*
 * "ending in 0401, k_n, the constructor's two words, then k_(n-1) down to
 * k_0". An operation "is translated like a built constructor"; it has its head
 * where the constructor has two words.
 */
static void put_passing_built(struct word_sink *sink, const struct term *built)
{
    size_t parts = built->part_count;

    put_chain_up_to_ending(sink, built);
    put_added_call(sink);
    put_continuation(sink, parts);
    put_own_words(sink, built);
    put_continuations_down(sink, parts);
}

/* "each with its two words, 0401, its body's passing form, 0901" */
static void put_arm(struct word_sink *sink, const struct term *arm)
{
    put_own_words(sink, arm);
    put_added_call(sink);
    put_passing_form(sink, arm->parts[0]);
    put_continuation(sink, K_NEXT_OUT);
}

/*
 * "Match: 0201 0401, the subject's passing form, 0201, the match's head,
 * 0900, then the arms in order"
 */
static void put_passing_match(struct word_sink *sink, const struct term *match)
{
    put_opening(sink);
    put_passing_form(sink, match->parts[0]);
    put_added_function(sink);
    put_head(sink, KIND_MATCH, match->low);
    put_continuation(sink, K_INNERMOST);
    for (size_t i = 1; i < match->part_count; i++)
        put_arm(sink, match->parts[i]);
}

void put_passing_form(struct word_sink *sink, const struct term *term)
{
    if (sink_has_overflowed(sink))
        return;
    if (term->atom)
        put_passing_atom(sink, term);
    else if (term->kind == KIND_LET)
        put_passing_let(sink, term);
    else if (term->kind == KIND_CALL)
        put_passing_call(sink, term);
    else if (term->kind == KIND_CONSTRUCTOR || term->kind == KIND_OPERATION)
        put_passing_built(sink, term);
    else
        put_passing_match(sink, term);
}

/* "The image of a rule is 0401, its passing form, 0201 0900." */
void put_image(struct word_sink *sink, const struct term *rule)
{
    put_added_call(sink);
    put_passing_form(sink, rule);
    put_added_function(sink);
    put_continuation(sink, K_INNERMOST);
}

static size_t image_length(const struct term *rule)
{
    struct word_sink sink = sink_that_measures();

    put_image(&sink, rule);
    return sink.count;
}

struct refusal check_rule(uint16_t version, struct word_list rule)
{
    return measure_image(version, rule).refusal;
}

struct reply measure_image(uint16_t version, struct word_list rule)
{
    struct arena arena = arena_without_limit();
    struct reading reading = read_rule(&arena, version, rule);
    struct reply reply = { reading.refusal, 0 };

    if (reading.term != NULL)
        reply.count = image_length(reading.term);
    arena_release(&arena);
    return reply;
}

/* "Then, in the writing call only, 9." */
static struct reply write_within(const struct term *rule, uint16_t *output,
                                 size_t capacity)
{
    size_t length = image_length(rule);
    struct word_sink sink = sink_into(output, length);

    if (length > capacity)
        return (struct reply){ { REFUSED_OUTPUT_SHORT, 0 }, 0 };
    put_image(&sink, rule);
    return (struct reply){ { REFUSED_NOTHING, 0 }, length };
}

struct reply write_image(uint16_t version, struct word_list rule,
                         uint16_t *output, size_t capacity)
{
    struct arena arena = arena_without_limit();
    struct reading reading = read_rule(&arena, version, rule);
    struct reply reply = { reading.refusal, 0 };

    if (reading.term != NULL)
        reply = write_within(reading.term, output, capacity);
    arena_release(&arena);
    return reply;
}
