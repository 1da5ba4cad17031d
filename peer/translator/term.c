#include "term.h"

enum { LAYOUTS = 2 };

enum parts_named { NAMED_NOWHERE, NAMED_BY_LOW, NAMED_BY_SECOND };

/* What follows a head before any part. */
enum words_following { NOTHING_FOLLOWS, SECOND_FOLLOWS, NUMBER_FOLLOWS };

struct kind_row {
    uint16_t since; /* the first version that has it */
    bool stands_as_term[LAYOUTS];
    uint8_t lowest;
    uint8_t highest[LAYOUTS];
    enum words_following following;
    size_t fixed_parts;
    enum parts_named further_parts;
};

/*
 * "The permitted kinds and ranges form one constant table, used by every
 * reader." Each pair is for the rule, then for the image.
 */
static const struct kind_row kind_table[] = {
    [KIND_VARIABLE] = { VERSION_1, { true, true }, 0,
                        { LOW_BYTE_MOST, LOW_BYTE_MOST },
                        NOTHING_FOLLOWS, 0, NAMED_NOWHERE },
    [KIND_FUNCTION] = { VERSION_1, { true, true }, 1,
                        { ARGUMENTS_MOST, IMAGE_ARGUMENTS_MOST },
                        NOTHING_FOLLOWS, 1, NAMED_NOWHERE },
    [KIND_RECURSIVE] = { VERSION_1, { true, true }, 1,
                         { ARGUMENTS_MOST, IMAGE_ARGUMENTS_MOST },
                         NOTHING_FOLLOWS, 1, NAMED_NOWHERE },
    [KIND_CALL] = { VERSION_1, { true, true }, 1,
                    { ARGUMENTS_MOST, IMAGE_ARGUMENTS_MOST },
                    NOTHING_FOLLOWS, 1, NAMED_BY_LOW },
    [KIND_LET] = { VERSION_1, { true, true }, 0, { 0, 0 },
                   NOTHING_FOLLOWS, 2, NAMED_NOWHERE },
    [KIND_CONSTRUCTOR] = { VERSION_1, { true, true }, 0,
                           { LOW_BYTE_MOST, LOW_BYTE_MOST },
                           SECOND_FOLLOWS, 0, NAMED_BY_SECOND },
    [KIND_MATCH] = { VERSION_1, { true, true }, 1, { ARMS_MOST, ARMS_MOST },
                     NOTHING_FOLLOWS, 1, NAMED_BY_LOW },
    [KIND_ARM] = { VERSION_1, { false, false }, 0,
                   { LOW_BYTE_MOST, LOW_BYTE_MOST },
                   SECOND_FOLLOWS, 1, NAMED_NOWHERE },
    [KIND_CONTINUATION] = { VERSION_1, { false, true }, 0,
                            { LOW_BYTE_MOST, LOW_BYTE_MOST },
                            NOTHING_FOLLOWS, 0, NAMED_NOWHERE },
    [KIND_NUMBER] = { VERSION_2, { true, true }, 0, { 0, 0 },
                      NUMBER_FOLLOWS, 0, NAMED_NOWHERE },
    [KIND_OPERATION] = { VERSION_2, { true, true }, OPERATION_ADD,
                         { OPERATION_LESS, OPERATION_LESS },
                         NOTHING_FOLLOWS, OPERATION_PARTS, NAMED_NOWHERE },
};

uint16_t head_word(enum kind kind, uint8_t low)
{
    return (uint16_t)((unsigned)kind << LOW_BYTE_BITS | low);
}

uint16_t source_word(struct source_index index)
{
    return head_word(KIND_VARIABLE, index.number);
}

uint16_t continuation_word(struct continuation_index index)
{
    return head_word(KIND_CONTINUATION, index.number);
}

uint8_t word_kind(uint16_t word)
{
    return (uint8_t)(word >> LOW_BYTE_BITS);
}

uint8_t word_low(uint16_t word)
{
    return (uint8_t)(word & LOW_BYTE_MOST);
}

bool version_is_known(uint16_t version)
{
    return version == VERSION_1 || version == VERSION_2;
}

/* "4 allows 10 and 11 in version 2 only" */
bool kind_stands_as_term(enum layout layout, uint16_t version, uint8_t kind)
{
    return kind < sizeof kind_table / sizeof kind_table[0] &&
           kind_table[kind].since <= version &&
           kind_table[kind].stands_as_term[layout];
}

bool low_is_in_range(enum layout layout, uint8_t kind, uint8_t low)
{
    const struct kind_row *row = &kind_table[kind];

    return row->lowest <= low && low <= row->highest[layout];
}

bool kind_has_second_word(uint8_t kind)
{
    return kind_table[kind].following == SECOND_FOLLOWS;
}

bool kind_has_number(uint8_t kind)
{
    return kind_table[kind].following == NUMBER_FOLLOWS;
}

bool second_is_in_range(uint16_t second)
{
    return second <= ARGUMENTS_MOST;
}

static size_t part_count(const struct term *term)
{
    const struct kind_row *row = &kind_table[term->kind];

    switch (row->further_parts) {
    case NAMED_BY_LOW:
        return row->fixed_parts + term->low;
    case NAMED_BY_SECOND:
        return row->fixed_parts + term->second;
    case NAMED_NOWHERE:
        break;
    }
    return row->fixed_parts;
}

struct term *term_with_parts(struct arena *arena, struct term model)
{
    struct term *term = arena_take(arena, sizeof *term);

    *term = (struct term){ .kind = model.kind,
                           .low = model.low,
                           .second = model.second,
                           .number = model.number };
    term->part_count = part_count(term);
    term->parts = arena_take(arena, term->part_count * sizeof term->parts[0]);
    return term;
}

/*
 * "An atom is a variable, a function, a recursive function, or a constructor
 * whose arguments are all atoms." And: "A number is an atom. An operation
 * never is".
 */
void settle_atom(struct term *term)
{
    switch (term->kind) {
    case KIND_VARIABLE:
    case KIND_CONTINUATION:
    case KIND_FUNCTION:
    case KIND_RECURSIVE:
    case KIND_NUMBER:
        term->atom = true;
        return;
    case KIND_CONSTRUCTOR:
        term->atom = true;
        for (size_t i = 0; i < term->part_count; i++)
            term->atom = term->atom && term->parts[i]->atom;
        return;
    default:
        term->atom = false;
    }
}

/*
 * "In an image the first argument of a function is k_0 and the others are
 * source variables"; a recursive function also binds itself, among the source
 * variables in both layouts.
 */
static struct scope scope_of_body(enum layout layout,
                                  const struct term *function,
                                  struct scope scope)
{
    scope.source += function->low;
    if (layout == LAYOUT_IMAGE) {
        scope.source--;
        scope.continuation++;
    }
    if (function->kind == KIND_RECURSIVE)
        scope.source++;
    return scope;
}

struct scope scope_of_part(enum layout layout, const struct term *term,
                           size_t part, struct scope outside)
{
    const size_t let_body = 1;

    switch (term->kind) {
    case KIND_FUNCTION:
    case KIND_RECURSIVE:
        return scope_of_body(layout, term, outside);
    case KIND_LET:
        outside.source += part == let_body ? 1 : 0;
        return outside;
    case KIND_ARM:
        outside.source += term->second;
        return outside;
    default:
        return outside;
    }
}

void put_own_words(struct word_sink *sink, const struct term *term)
{
    put_word(sink, head_word(term->kind, term->low));
    if (kind_has_second_word(term->kind))
        put_word(sink, term->second);
    if (kind_has_number(term->kind)) { /* "high first" */
        put_word(sink, (uint16_t)(term->number >> WORD_BITS));
        put_word(sink, (uint16_t)term->number);
    }
}

void put_term(struct word_sink *sink, const struct term *term)
{
    if (sink_has_overflowed(sink))
        return;
    put_own_words(sink, term);
    for (size_t i = 0; i < term->part_count; i++)
        put_term(sink, term->parts[i]);
}
