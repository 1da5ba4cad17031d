#include "gen_places.h"

#include "../translator/rule.h"
#include "gen_record.h"

/* Closed terms of every form, of many lengths: what stands beside a part. */
#define LEAF 0x0600, 0x0000
#define FUNCTION 0x0201, 0x0100
#define LET 0x0500, LEAF, 0x0100
#define CALL 0x0401, FUNCTION, LEAF
#define PAIR 0x0602, 0x0002, FUNCTION, LEAF
#define MATCH 0x0702, LEAF, 0x0800, 0x0000, LEAF, 0x0801, 0x0001, 0x0100
/* Of the second version: a number, and an operation on two of them. */
#define NUMBER_LEAF 0x0A00, 0x0401, 0xFFFF
#define DIFFERENCE 0x0B01, NUMBER_LEAF, 0x0A00, 0x0000, 0x0001

/* Of a form: the words before one of its parts and those after it. */
struct part {
    struct word_list before;
    struct word_list after;
};

static const struct part whole_rule = { { NULL, 0 }, { NULL, 0 } };

static const struct part parts[] = {
    /* A function's body, and a recursive one's. */
    { WORD_LIST(0x0203), { NULL, 0 } },
    { WORD_LIST(0x0302), { NULL, 0 } },
    /* A call's function, its first argument, the middle one, its last. */
    { WORD_LIST(0x0403), WORD_LIST(LEAF, LET, MATCH) },
    { WORD_LIST(0x0403, FUNCTION), WORD_LIST(LET, LEAF) },
    { WORD_LIST(0x0403, LET, MATCH), WORD_LIST(LEAF) },
    { WORD_LIST(0x0403, FUNCTION, CALL, LET), { NULL, 0 } },
    /* A let's bound term and its body. */
    { WORD_LIST(0x0500), WORD_LIST(0x0100) },
    { WORD_LIST(0x0500, PAIR), { NULL, 0 } },
    /* A constructor's first argument and its last. */
    { WORD_LIST(0x06FF, 0x0003), WORD_LIST(CALL, LEAF) },
    { WORD_LIST(0x0605, 0x0003, LEAF, MATCH), { NULL, 0 } },
    /* A match's subject, its first arm's body, its last arm's. */
    { WORD_LIST(0x0702),
      WORD_LIST(0x0800, 0x0000, LEAF, 0x0801, 0x0002, 0x0101) },
    { WORD_LIST(0x0702, CALL, 0x0800, 0x0002),
      WORD_LIST(0x0801, 0x0000, LEAF) },
    { WORD_LIST(0x0703, PAIR, 0x0800, 0x0000, LET, 0x0801, 0x0001, 0x0100,
                0x0802, 0x0002),
      { NULL, 0 } },
};

enum { PARTS = sizeof parts / sizeof parts[0] };

/* Parts of operations, and parts beside numbers and operations. */
static const struct part number_parts[] = {
    /* An operation's first part and its second. */
    { WORD_LIST(0x0B00), WORD_LIST(NUMBER_LEAF) },
    { WORD_LIST(0x0B02, DIFFERENCE), { NULL, 0 } },
    /* Both parts of one that is a match's subject, and an arm after it. */
    { WORD_LIST(0x0701, 0x0B02), WORD_LIST(LET, 0x0800, 0x0000, NUMBER_LEAF) },
    { WORD_LIST(0x0701, 0x0B02, NUMBER_LEAF),
      WORD_LIST(0x0801, 0x0000, DIFFERENCE) },
    { WORD_LIST(0x0702, 0x0B02, NUMBER_LEAF, CALL, 0x0800, 0x0000, NUMBER_LEAF,
                0x0801, 0x0000),
      { NULL, 0 } },
    /* An argument after a number, and a body after an operation. */
    { WORD_LIST(0x0403, FUNCTION, NUMBER_LEAF),
      WORD_LIST(DIFFERENCE, NUMBER_LEAF) },
    { WORD_LIST(0x06FF, 0x0003, NUMBER_LEAF, DIFFERENCE), { NULL, 0 } },
    { WORD_LIST(0x0500, DIFFERENCE), { NULL, 0 } },
};

enum { NUMBER_PARTS = sizeof number_parts / sizeof number_parts[0] };

/* As many as lead from any depth to one too many. */
#define EIGHT_FUNCTIONS \
    0x0201, 0x0201, 0x0201, 0x0201, 0x0201, 0x0201, 0x0201, 0x0201
#define MOST_FUNCTIONS                                                  \
    EIGHT_FUNCTIONS, EIGHT_FUNCTIONS, EIGHT_FUNCTIONS, EIGHT_FUNCTIONS, \
        EIGHT_FUNCTIONS, EIGHT_FUNCTIONS, EIGHT_FUNCTIONS, EIGHT_FUNCTIONS

#define EIGHT_OPERATIONS \
    0x0B00, 0x0B00, 0x0B00, 0x0B00, 0x0B00, 0x0B00, 0x0B00, 0x0B00
#define MOST_OPERATIONS                                                     \
    EIGHT_OPERATIONS, EIGHT_OPERATIONS, EIGHT_OPERATIONS, EIGHT_OPERATIONS, \
        EIGHT_OPERATIONS, EIGHT_OPERATIONS, EIGHT_OPERATIONS,               \
        EIGHT_OPERATIONS

/* What stands after a fault: what would, nothing, or that and a leaf more. */
enum rest { REST_FOLLOWS, REST_IS_CUT, REST_IS_TOO_LONG };

/* The words for a part, and which of them is tested if it is at depth 2. */
struct fault {
    struct word_list words;
    enum rest rest;
    size_t tested;
};

enum fault_name {
    HEAD_MISSING,
    SECOND_MISSING,
    ARM_MISSING,
    ARM_SECOND_MISSING,
    HEAD_KIND,
    ARM_KIND,
    HEAD_RANGE,
    SECOND_RANGE,
    ARM_SECOND_RANGE,
    ARM_DEAD,
    DEPTH,
    UNBOUND,
    WORDS_LEFT,
    FAULTS
};

static const struct fault faults[FAULTS] = {
    [HEAD_MISSING] = { { NULL, 0 }, REST_IS_CUT, 0 }, /* no words at all: 1 */
    [SECOND_MISSING] = { WORD_LIST(0x0600), REST_IS_CUT, 1 },
    [ARM_MISSING] = { WORD_LIST(0x0702, LEAF, 0x0800, 0x0000, LEAF),
                      REST_IS_CUT, 7 },
    [ARM_SECOND_MISSING] = { WORD_LIST(0x0701, LEAF, 0x0800), REST_IS_CUT, 4 },
    [HEAD_KIND] = { WORD_LIST(0x0800), REST_FOLLOWS, 0 },
    [ARM_KIND] = { WORD_LIST(0x0701, LEAF, 0x0700), REST_FOLLOWS, 3 },
    [HEAD_RANGE] = { WORD_LIST(0x04FF), REST_FOLLOWS, 0 },
    [SECOND_RANGE] = { WORD_LIST(0x0601, 0x00FF), REST_FOLLOWS, 1 },
    [ARM_SECOND_RANGE] = { WORD_LIST(0x0702, LEAF, 0x0801, 0x0001, 0x0100,
                                     0x0802, 0x00FF),
                           REST_FOLLOWS, 7 },
    [ARM_DEAD] = { WORD_LIST(0x0702, LEAF, 0x0801, 0x0001, 0x0100, 0x0801,
                             0x0001),
                   REST_FOLLOWS, 7 },
    [DEPTH] = { WORD_LIST(MOST_FUNCTIONS, LEAF), REST_FOLLOWS,
                RULE_DEPTH_MOST - 1 },
    [UNBOUND] = { WORD_LIST(0x01FF), REST_FOLLOWS, 0 },
    [WORDS_LEFT] = { WORD_LIST(LEAF), REST_IS_TOO_LONG, 2 },
};

enum number_fault_name {
    NUMBER_MISSING,
    NUMBER_LAST_MISSING,
    OPERATION_PART_MISSING,
    NUMBER_RANGE,
    OPERATION_RANGE,
    OPERATION_PART_RANGE,
    NEXT_KIND,
    OPERATION_PART_KIND,
    NUMBER_FOR_ARM,
    OPERATION_FOR_ARM,
    SECOND_RANGE_AFTER_NUMBER,
    ARM_DEAD_AFTER_NUMBER,
    OPERATIONS_DEPTH,
    NUMBER_DEPTH,
    OPERATION_PART_UNBOUND,
    WORDS_LEFT_AFTER_NUMBER,
    WORDS_LEFT_AFTER_OPERATION,
    NUMBER_FAULTS
};

static const struct fault number_faults[NUMBER_FAULTS] = {
    [NUMBER_MISSING] = { WORD_LIST(0x0A00), REST_IS_CUT, 1 },
    [NUMBER_LAST_MISSING] = { WORD_LIST(0x0A00, 0x0401), REST_IS_CUT, 2 },
    [OPERATION_PART_MISSING] = { WORD_LIST(0x0B02, NUMBER_LEAF), REST_IS_CUT,
                                 4 },
    [NUMBER_RANGE] = { WORD_LIST(0x0A01), REST_FOLLOWS, 0 },
    [OPERATION_RANGE] = { WORD_LIST(0x0B03), REST_FOLLOWS, 0 },
    [OPERATION_PART_RANGE] = { WORD_LIST(0x0B00, NUMBER_LEAF, 0x0BFF),
                               REST_FOLLOWS, 4 },
    [NEXT_KIND] = { WORD_LIST(0x0C00), REST_FOLLOWS, 0 },
    [OPERATION_PART_KIND] = { WORD_LIST(0x0B01, 0x0800), REST_FOLLOWS, 1 },
    [NUMBER_FOR_ARM] = { WORD_LIST(0x0701, LEAF, 0x0A00), REST_FOLLOWS, 3 },
    [OPERATION_FOR_ARM] = { WORD_LIST(0x0702, NUMBER_LEAF, 0x0800, 0x0000,
                                      NUMBER_LEAF, 0x0B00),
                            REST_FOLLOWS, 9 },
    [SECOND_RANGE_AFTER_NUMBER] = { WORD_LIST(0x0602, 0x0002, NUMBER_LEAF,
                                              0x0601, 0x0010),
                                    REST_FOLLOWS, 6 },
    [ARM_DEAD_AFTER_NUMBER] = { WORD_LIST(0x0702, DIFFERENCE, 0x0801, 0x0000,
                                          NUMBER_LEAF, 0x0801, 0x0000),
                                REST_FOLLOWS, 14 },
    [OPERATIONS_DEPTH] = { WORD_LIST(MOST_OPERATIONS, NUMBER_LEAF),
                           REST_FOLLOWS, RULE_DEPTH_MOST - 1 },
    [NUMBER_DEPTH] = { WORD_LIST(MOST_FUNCTIONS, 0x0A01), REST_FOLLOWS,
                       RULE_DEPTH_MOST - 1 },
    [OPERATION_PART_UNBOUND] = { WORD_LIST(0x0B00, NUMBER_LEAF, 0x01FF),
                                 REST_FOLLOWS, 4 },
    [WORDS_LEFT_AFTER_NUMBER] = { WORD_LIST(NUMBER_LEAF), REST_IS_TOO_LONG,
                                  3 },
    [WORDS_LEFT_AFTER_OPERATION] = { WORD_LIST(DIFFERENCE), REST_IS_TOO_LONG,
                                     7 },
};

/* One part inside the other, the fault inside both. */
static void write_fault(struct outlet *out, const struct part *outer,
                        const struct part *inner, const struct fault *fault)
{
    struct record record;

    start_record(&record);
    put_words(&record.sink, outer->before);
    put_words(&record.sink, inner->before);
    put_words(&record.sink, fault->words);
    if (fault->rest != REST_IS_CUT) {
        put_words(&record.sink, inner->after);
        put_words(&record.sink, outer->after);
    }
    if (fault->rest == REST_IS_TOO_LONG)
        put_leaf(&record.sink);
    end_record(&record, out);
}

static void write_faults_of_one_part(struct outlet *out,
                                     const struct part *part)
{
    for (size_t i = 0; i < FAULTS; i++)
        write_fault(out, &whole_rule, part, &faults[i]);
}

static void write_number_faults_of_one_part(struct outlet *out,
                                            const struct part *part)
{
    for (size_t i = 0; i < NUMBER_FAULTS; i++)
        write_fault(out, &whole_rule, part, &number_faults[i]);
}

/* For each two parts one of the faults, in turn. */
static void write_faults_of_two_parts(struct outlet *out)
{
    for (size_t i = 0; i < PARTS; i++)
        for (size_t j = 0; j < PARTS; j++)
            write_fault(out, &parts[i], &parts[j], &faults[(i + j) % FAULTS]);
}

/* In a let's body, so that the word tested has that place. */
static void write_fault_at(struct outlet *out, size_t place,
                           const struct fault *fault)
{
    struct record front;

    start_record(&front);
    put_kind(&front.sink, KIND_LET, 0);
    put_filler(&front.sink, place - fault->tested - front.sink.count);
    struct part body = { sink_words(&front.sink), { NULL, 0 } };
    write_fault(out, &body, &whole_rule, fault);
}

/* About the end of one byte; of each digit, for one fault; the highest of 3. */
static void write_far_faults(struct outlet *out)
{
    static const size_t digits[] = { 9, 10, 99, 100, 999, 1000 };

    for (size_t i = 0; i < FAULTS; i++) {
        write_fault_at(out, LOW_BYTE_MOST, &faults[i]);
        write_fault_at(out, LOW_BYTE_MOST + 1, &faults[i]);
        if (faults[i].rest == REST_IS_CUT)
            write_fault_at(out, RULE_WORDS_MOST, &faults[i]);
    }
    for (size_t i = 0; i < sizeof digits / sizeof digits[0]; i++)
        write_fault_at(out, digits[i], &faults[SECOND_RANGE]);
}

void write_places(struct outlet *out)
{
    write_faults_of_one_part(out, &whole_rule);
    for (size_t i = 0; i < PARTS; i++)
        write_faults_of_one_part(out, &parts[i]);
    write_faults_of_two_parts(out);
    write_far_faults(out);
}

/* For each older part and each of these one of the faults, both ways round. */
static void write_number_faults_of_two_parts(struct outlet *out)
{
    for (size_t i = 0; i < PARTS; i++)
        for (size_t j = 0; j < NUMBER_PARTS; j++) {
            write_fault(out, &parts[i], &number_parts[j],
                        &number_faults[(i + j) % NUMBER_FAULTS]);
            write_fault(out, &number_parts[j], &parts[i],
                        &faults[(i + j) % FAULTS]);
        }
}

void write_number_places(struct outlet *out)
{
    write_number_faults_of_one_part(out, &whole_rule);
    for (size_t i = 0; i < PARTS; i++)
        write_number_faults_of_one_part(out, &parts[i]);
    for (size_t i = 0; i < NUMBER_PARTS; i++) {
        write_number_faults_of_one_part(out, &number_parts[i]);
        write_faults_of_one_part(out, &number_parts[i]);
    }
    write_number_faults_of_two_parts(out);
    write_fault_at(out, LOW_BYTE_MOST, &number_faults[NUMBER_RANGE]);
    write_fault_at(out, LOW_BYTE_MOST + 1, &number_faults[NUMBER_MISSING]);
    write_fault_at(out, RULE_WORDS_MOST,
                   &number_faults[NUMBER_LAST_MISSING]);
}
