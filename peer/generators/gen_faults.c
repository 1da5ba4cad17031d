#include "gen_faults.h"

#include "../translator/rule.h"
#include "cases.h"
#include "gen_record.h"

enum {
    EARLY_PLACE = 12,
    MIDDLE_PLACE = 1024,
    LAST_PLACE = RULE_WORDS_MOST - 1,
    TRAILING_WORDS = 5,
    TRAILING_WORD = 0xFFFF,
    BAD_KIND_WORD = 0x0A00,
    BAD_RANGE_WORD = 0x0200,
    UNBOUND_WORD = 0x0100,
    UNBOUND_IN_LET_WORD = 0x0101,
    BAD_SECOND_WORD = ARGUMENTS_MOST + 1
};

/* A fault before the last place is followed by words that are faults too. */
static void end_fault(struct record *record, size_t place, struct outlet *out)
{
    for (size_t i = 0; place < LAST_PLACE && i < TRAILING_WORDS; i++)
        put_word(&record->sink, TRAILING_WORD);
    end_record(record, out);
}

/* At the place the let's body is wanted, with one variable bound. */
static void put_let_up_to(struct word_sink *sink, size_t place)
{
    put_kind(sink, KIND_LET, 0);
    put_filler(sink, place - 1);
}

/* At the place the match's only arm is wanted. */
static void put_match_up_to(struct word_sink *sink, size_t place)
{
    put_kind(sink, KIND_MATCH, 1);
    put_filler(sink, place - 1);
}

static void write_head_fault(struct outlet *out, size_t place, uint16_t word)
{
    struct record record;

    start_record(&record);
    if (place > 0)
        put_let_up_to(&record.sink, place);
    put_word(&record.sink, word);
    end_fault(&record, place, out);
}

static void write_arm_fault(struct outlet *out, size_t place, uint16_t word)
{
    struct record record;

    start_record(&record);
    put_match_up_to(&record.sink, place);
    put_word(&record.sink, word);
    end_fault(&record, place, out);
}

static void write_second_fault(struct outlet *out, size_t place,
                               uint16_t second)
{
    struct record record;

    start_record(&record);
    if (place > 1)
        put_let_up_to(&record.sink, place - 1);
    put_two(&record.sink, KIND_CONSTRUCTOR, 0, second);
    end_fault(&record, place, out);
}

static void write_arm_second_fault(struct outlet *out, size_t place,
                                   uint16_t second)
{
    struct record record;

    start_record(&record);
    put_match_up_to(&record.sink, place - 1);
    put_two(&record.sink, KIND_ARM, 0, second);
    end_fault(&record, place, out);
}

/* 2: the words themselves are not looked at. */
static void write_too_many(struct outlet *out, size_t words, bool well_formed)
{
    struct record record;

    start_record(&record);
    if (well_formed)
        put_filler(&record.sink, words);
    else
        for (size_t i = 0; i < words; i++)
            put_word(&record.sink, TRAILING_WORD);
    end_record(&record, out);
}

/* 3: the front of a longer rule; a rule is never whole before its end. */
static void write_cut_rule(struct outlet *out, struct word_list rule,
                           size_t words)
{
    write_rule(out, (struct word_list){ rule.words, words });
}

static void write_cut_filler(struct outlet *out, size_t words)
{
    struct record record;

    start_record(&record);
    put_filler(&record.sink, words + 1);
    write_cut_rule(out, sink_words(&record.sink), words);
}

/* 6: the word at the place stands at depth 65, below a let if not the first. */
static void write_too_deep(struct outlet *out, size_t place,
                           struct word_list at_place)
{
    const struct word_list function = WORD_LIST(0x0201);
    struct record record;
    size_t functions = RULE_DEPTH_MOST;

    start_record(&record);
    if (place > RULE_DEPTH_MOST) {
        functions--; /* the let itself is one level */
        put_let_up_to(&record.sink, place - functions);
    }
    put_repeated(&record.sink, function, functions);
    put_words(&record.sink, at_place);
    end_record(&record, out);
}

/* 8 */
static void write_words_left(struct outlet *out, size_t place, size_t left)
{
    struct record record;

    start_record(&record);
    put_filler(&record.sink, place);
    for (size_t i = 0; i < left; i++)
        put_word(&record.sink, head_word(KIND_VARIABLE, 0));
    end_record(&record, out);
}

static void write_missing_words(struct outlet *out)
{
    write_cut_filler(out, 1);
    write_cut_filler(out, MIDDLE_PLACE);
    for (size_t i = 0; i < ACCEPTED_CASES; i++)
        for (size_t words = 1; words < accepted_cases[i].rule.count; words++)
            write_cut_rule(out, accepted_cases[i].rule, words);
}

static void write_bad_kinds(struct outlet *out)
{
    static const uint16_t at_term[] = { 0x0000, 0x00FF, 0x0800, 0x0801,
                                        0x0900, 0x0901, 0x0AFF, 0x1000,
                                        0x8100, 0xFFFF };
    static const uint16_t at_arm[] = { 0x0000, 0x0100, 0x0201, 0x0600,
                                       0x0701, 0x0900, 0x0A00, 0xFFFF };
    const size_t first_arm_place = 3;

    write_head_fault(out, 0, BAD_KIND_WORD);
    write_head_fault(out, MIDDLE_PLACE, BAD_KIND_WORD);
    write_head_fault(out, LAST_PLACE, BAD_KIND_WORD);
    write_arm_fault(out, first_arm_place, BAD_KIND_WORD);
    write_arm_fault(out, MIDDLE_PLACE, BAD_KIND_WORD);
    write_arm_fault(out, LAST_PLACE, BAD_KIND_WORD);
    for (size_t i = 0; i < sizeof at_term / sizeof at_term[0]; i++) {
        write_head_fault(out, 0, at_term[i]);
        write_head_fault(out, EARLY_PLACE, at_term[i]);
    }
    for (size_t i = 0; i < sizeof at_arm / sizeof at_arm[0]; i++)
        write_arm_fault(out, EARLY_PLACE, at_arm[i]);
}

static void write_bad_head(struct outlet *out, enum kind kind, size_t low)
{
    uint16_t word = head_word(kind, (uint8_t)low);

    write_head_fault(out, 0, word);
    write_head_fault(out, EARLY_PLACE, word);
}

/* Those kinds of which a low byte can be outside the range. */
static void write_bad_heads(struct outlet *out)
{
    static const struct range {
        enum kind kind;
        size_t least;
        size_t most;
    } ranges[] = {
        { KIND_FUNCTION, 1, ARGUMENTS_MOST },
        { KIND_RECURSIVE, 1, ARGUMENTS_MOST },
        { KIND_CALL, 1, ARGUMENTS_MOST },
        { KIND_LET, 0, 0 },
        { KIND_MATCH, 1, ARMS_MOST },
    };

    for (size_t i = 0; i < sizeof ranges / sizeof ranges[0]; i++) {
        const struct range *range = &ranges[i];

        if (range->least > 0) {
            write_bad_head(out, range->kind, range->least - 1);
            write_bad_head(out, range->kind, 2 * range->most + 1);
        }
        write_bad_head(out, range->kind, range->most + 1);
        write_bad_head(out, range->kind, LOW_BYTE_MOST);
    }
}

/* One past the range and farther; two that have a low byte within it. */
static void write_bad_ranges(struct outlet *out)
{
    static const uint16_t seconds[] = {
        ARGUMENTS_MOST + 1, 2 * ARGUMENTS_MOST + 1, LOW_BYTE_MOST,
        LOW_BYTE_MOST + 1,  LOW_BYTE_MOST + 1 + ARGUMENTS_MOST,
        0x8000,             0xFFFF
    };
    const size_t first_arm_second = 4;

    write_head_fault(out, 0, BAD_RANGE_WORD);
    write_head_fault(out, MIDDLE_PLACE, BAD_RANGE_WORD);
    write_head_fault(out, LAST_PLACE, BAD_RANGE_WORD);
    write_second_fault(out, 1, BAD_SECOND_WORD);
    write_second_fault(out, MIDDLE_PLACE, BAD_SECOND_WORD);
    write_second_fault(out, LAST_PLACE, BAD_SECOND_WORD);
    write_arm_second_fault(out, first_arm_second, BAD_SECOND_WORD);
    write_arm_second_fault(out, LAST_PLACE, BAD_SECOND_WORD);
    write_bad_heads(out);
    for (size_t i = 0; i < sizeof seconds / sizeof seconds[0]; i++) {
        write_second_fault(out, EARLY_PLACE, seconds[i]);
        write_arm_second_fault(out, EARLY_PLACE, seconds[i]);
    }
}

/* At depth 65 the tests before 6 and after it are tried as well. */
static const struct word_list at_depth_65[] = {
    { NULL, 0 },               /* 3 comes before 6 */
    WORD_LIST(0x0100),
    WORD_LIST(0x01FF),         /* 6 comes before 7 */
    WORD_LIST(BAD_KIND_WORD),  /* and before 4 */
    WORD_LIST(BAD_RANGE_WORD), /* and before 5 */
    WORD_LIST(0x0201, 0x0100),
};

static void write_depths(struct outlet *out)
{
    const struct word_list variable = WORD_LIST(0x0100);

    for (size_t i = 0; i < sizeof at_depth_65 / sizeof at_depth_65[0]; i++)
        write_too_deep(out, RULE_DEPTH_MOST, at_depth_65[i]);
    write_too_deep(out, MIDDLE_PLACE, variable);
    write_too_deep(out, LAST_PLACE, variable);
}

void write_faults(struct outlet *out)
{
    write_rule(out, (struct word_list){ NULL, 0 });
    write_too_many(out, RULE_WORDS_MOST + 1, true);
    write_too_many(out, RECORD_WORDS_MOST, false);
    write_missing_words(out);
    write_bad_kinds(out);
    write_bad_ranges(out);
    write_depths(out);
    write_head_fault(out, 0, UNBOUND_WORD);
    write_head_fault(out, MIDDLE_PLACE, UNBOUND_IN_LET_WORD);
    write_head_fault(out, LAST_PLACE, UNBOUND_IN_LET_WORD);
    write_words_left(out, FILLER_WORDS_LEAST, 1);
    write_words_left(out, FILLER_WORDS_LEAST, TRAILING_WORDS);
    write_words_left(out, MIDDLE_PLACE, TRAILING_WORDS);
    write_words_left(out, LAST_PLACE, 1);
}
