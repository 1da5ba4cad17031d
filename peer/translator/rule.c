#include "rule.h"

#include <stdbool.h>

/*
 * A chain puts two heads before each of its terms, and the next inside them,
 * so a call's last argument is twice as many levels down as the call has
 * parts. No other part is as far down, and what an image has above and below
 * a rule's terms is less than one such level more.
 */
enum {
    IMAGE_LEVELS_OF_ONE = 2 * (ARGUMENTS_MOST + 1),
    IMAGE_DEPTH_MOST = IMAGE_LEVELS_OF_ONE * RULE_DEPTH_MOST
};

struct reader {
    struct arena *arena;
    struct word_list words;
    size_t next;
    enum layout layout;
    uint16_t version;
    size_t depth_most;
    struct refusal refusal;
};

struct head {
    uint8_t kind;
    uint8_t low;
};

static const struct term *read_term(struct reader *reader, size_t depth,
                                    struct scope scope);

void print_refusal(FILE *out, struct refusal refusal)
{
    fprintf(out, "no %d %zu\n", (int)refusal.number, refusal.place);
}

/* The word tested is the next; where none is left, its place is the count. */
static bool refuse(struct reader *reader, enum refusal_number number)
{
    reader->refusal = (struct refusal){ number, reader->next };
    return false;
}

static bool no_word_is_left(const struct reader *reader)
{
    return reader->next == reader->words.count;
}

static struct head next_head(const struct reader *reader)
{
    uint16_t word = reader->words.words[reader->next];

    return (struct head){ word_kind(word), word_low(word) };
}

/* "variable index not below the number of source variables bound there" */
static bool is_unbound(struct head head, struct scope scope)
{
    return (head.kind == KIND_VARIABLE && head.low >= scope.source) ||
           (head.kind == KIND_CONTINUATION && head.low >= scope.continuation);
}

/* "At a term's head the tests are 3, 6, 4, 5, 7." */
static bool test_term_head(struct reader *reader, size_t depth,
                           struct scope scope, struct head *head)
{
    if (no_word_is_left(reader))
        return refuse(reader, REFUSED_WORD_MISSING);
    if (depth > reader->depth_most)
        return refuse(reader, REFUSED_DEPTH);
    *head = next_head(reader);
    if (!kind_stands_as_term(reader->layout, reader->version, head->kind))
        return refuse(reader, REFUSED_KIND);
    if (!low_is_in_range(reader->layout, head->kind, head->low))
        return refuse(reader, REFUSED_RANGE);
    if (is_unbound(*head, scope))
        return refuse(reader, REFUSED_UNBOUND);
    reader->next++;
    return true;
}

/* "At an arm's head: 3, 4, 5." */
static bool test_arm_head(struct reader *reader, struct head *head)
{
    if (no_word_is_left(reader))
        return refuse(reader, REFUSED_WORD_MISSING);
    *head = next_head(reader);
    if (head->kind != KIND_ARM)
        return refuse(reader, REFUSED_KIND);
    if (!low_is_in_range(reader->layout, head->kind, head->low))
        return refuse(reader, REFUSED_RANGE);
    reader->next++;
    return true;
}

/* "At a second word: 3, 5." It stays the next word, for a test of its own. */
static bool test_second(struct reader *reader, uint16_t *second)
{
    if (no_word_is_left(reader))
        return refuse(reader, REFUSED_WORD_MISSING);
    if (!second_is_in_range(reader->words.words[reader->next]))
        return refuse(reader, REFUSED_RANGE);
    *second = reader->words.words[reader->next];
    return true;
}

/* A head without a second word passes. */
static bool test_term_second(struct reader *reader, struct head head,
                             uint16_t *second)
{
    *second = 0;
    if (!kind_has_second_word(head.kind))
        return true;
    if (!test_second(reader, second))
        return false;
    reader->next++;
    return true;
}

/* "a number's two words are tested for 3 only"; a head without them passes. */
static bool test_number(struct reader *reader, struct head head,
                        uint32_t *number)
{
    *number = 0;
    if (!kind_has_number(head.kind))
        return true;
    for (size_t i = 0; i < NUMBER_WORDS; i++) {
        if (no_word_is_left(reader))
            return refuse(reader, REFUSED_WORD_MISSING);
        *number = *number << WORD_BITS | reader->words.words[reader->next];
        reader->next++;
    }
    return true;
}

/* "a second arm with the same tag and arity can never be taken" */
static bool is_dead(const struct term *match, size_t part, struct head head,
                    uint16_t second)
{
    for (size_t i = 1; i < part; i++)
        if (match->parts[i]->low == head.low &&
            match->parts[i]->second == second)
            return true;
    return false;
}

/* "18, with its place, at an arm's second word after 3 and 5" */
static bool test_arm_second(struct reader *reader, const struct term *match,
                            size_t part, struct head head, uint16_t *second)
{
    if (!test_second(reader, second))
        return false;
    if (is_dead(match, part, head, *second))
        return refuse(reader, REFUSED_DEAD_ARM);
    reader->next++;
    return true;
}

/* "an arm's body one deeper than its match"; the parts before it are in. */
static const struct term *read_arm(struct reader *reader,
                                   const struct term *match, size_t part,
                                   size_t match_depth, struct scope scope)
{
    struct head head;
    uint16_t second;

    if (!test_arm_head(reader, &head) ||
        !test_arm_second(reader, match, part, head, &second))
        return NULL;
    struct term *arm = term_with_parts(
        reader->arena,
        (struct term){ .kind = head.kind, .low = head.low, .second = second });
    scope = scope_of_part(reader->layout, arm, 0, scope);
    arm->parts[0] = read_term(reader, match_depth + 1, scope);
    return arm->parts[0] == NULL ? NULL : arm;
}

/* "each part one deeper"; all parts of a match but the subject are arms. */
static bool read_parts(struct reader *reader, struct term *term, size_t depth,
                       struct scope scope)
{
    for (size_t i = 0; i < term->part_count; i++) {
        if (term->kind == KIND_MATCH && i > 0)
            term->parts[i] = read_arm(reader, term, i, depth, scope);
        else
            term->parts[i] =
                read_term(reader, depth + 1,
                          scope_of_part(reader->layout, term, i, scope));
        if (term->parts[i] == NULL)
            return false;
    }
    return true;
}

static const struct term *read_term(struct reader *reader, size_t depth,
                                    struct scope scope)
{
    struct head head;
    uint16_t second;
    uint32_t number;

    if (!test_term_head(reader, depth, scope, &head) ||
        !test_term_second(reader, head, &second) ||
        !test_number(reader, head, &number))
        return NULL;
    struct term *term =
        term_with_parts(reader->arena, (struct term){ .kind = head.kind,
                                                      .low = head.low,
                                                      .second = second,
                                                      .number = number });
    if (!read_parts(reader, term, depth, scope))
        return NULL;
    settle_atom(term);
    return term;
}

static struct reading refused(enum refusal_number number)
{
    return (struct reading){ { number, 0 }, NULL };
}

/*
 * "Lengths first: 1, then 2. [...] After the rule's last word: 8." And 11 is
 * "tested [...] before 1 outside unpacking".
 */
static struct reading read_whole(struct reader *reader, size_t words_most)
{
    const struct scope nothing_bound = { 0, 0 };
    const size_t whole_depth = 1;

    if (!version_is_known(reader->version))
        return refused(REFUSED_VERSION);
    if (reader->words.count == 0)
        return refused(REFUSED_NO_WORDS);
    if (reader->words.count > words_most)
        return refused(REFUSED_TOO_MANY_WORDS);
    const struct term *term = read_term(reader, whole_depth, nothing_bound);
    if (term != NULL && !no_word_is_left(reader)) {
        refuse(reader, REFUSED_WORDS_LEFT);
        term = NULL;
    }
    return (struct reading){ reader->refusal, term };
}

struct reading read_rule(struct arena *arena, uint16_t version,
                         struct word_list words)
{
    struct reader reader = { .arena = arena,
                             .words = words,
                             .layout = LAYOUT_RULE,
                             .version = version,
                             .depth_most = RULE_DEPTH_MOST };

    return read_whole(&reader, RULE_WORDS_MOST);
}

struct reading read_image(struct arena *arena, uint16_t version,
                          struct word_list words)
{
    struct reader reader = { .arena = arena,
                             .words = words,
                             .layout = LAYOUT_IMAGE,
                             .version = version,
                             .depth_most = IMAGE_DEPTH_MOST };

    return read_whole(&reader, IMAGE_WORDS_MOST);
}
