#include "selftest_numbers.h"

#include "../generators/gen_numbers.h"
#include "../generators/gen_record.h"
#include "../generators/number_cases.h"
#include "../translator/image.h"
#include "demand3.h"
#include "trials.h"

/* The documents' own numbers, so that the names for them are tested. */
enum {
    FIRST_KIND = 1,
    LAST_KIND = 7,
    NUMBER_KIND = 10,
    OPERATION_KIND = 11,
    LAST_OPERATION = 2,
    FIRST_KNOWN_VERSION = 1,
    LAST_KNOWN_VERSION = 2,
    LAST_DEPTH = 64,
    LONGEST_RULE = 4096,
    LONGEST_IMAGE = 7 * LONGEST_RULE - 1
};

static const struct run_case run_cases[] = {
    { "number taken whole", WORD_LIST(HIGHEST_NUMBER),
      WORD_LIST(HIGHEST_NUMBER), { .values = 1 } },
    { "sum is one more built", WORD_LIST(ADD, ONE_NUMBER, ONE_NUMBER),
      WORD_LIST(NUMBER(0, 2)), { .values = 2, .built = 1 } },
    { "less is one more built", WORD_LIST(LESS, ONE_NUMBER, ONE_NUMBER),
      WORD_LIST(0x0600, 0x0000), { .values = 2, .built = 1 } },
    { "constructor of numbers is a value",
      WORD_LIST(0x0601, 0x0002, ONE_NUMBER, 0x0602, 0x0001, ONE_NUMBER),
      WORD_LIST(0x0601, 0x0002, ONE_NUMBER, 0x0602, 0x0001, ONE_NUMBER),
      { .values = 1 } },
    { "constructor of an operation is built too",
      WORD_LIST(0x0601, 0x0001, SUBTRACT, ONE_NUMBER, ONE_NUMBER),
      WORD_LIST(0x0601, 0x0001, NOUGHT_NUMBER),
      { .values = 2, .built = 2 } },
    { "call, let and match around an operation",
      WORD_LIST(0x0401, 0x0201, 0x0500, ADD, 0x0100, 0x0100, 0x0702, LESS,
                0x0100, 0x0101, 0x0800, 0x0000, 0x0100, 0x0801, 0x0000, 0x0101,
                HALF_NUMBER),
      WORD_LIST(HALF_NUMBER),
      { .values = 7, .calls = 1, .lets = 1, .matches = 1, .built = 2 } },
};

static enum agreement agreement_on(struct word_list rule,
                                   enum outcome *of_rule,
                                   enum outcome *of_image)
{
    struct arena arena = arena_for_runs();
    struct both_runs runs = run_both(&arena, VERSION_2, rule);
    enum agreement agreement = demand3_agreement(&arena, &runs);

    *of_rule = runs.of_rule.outcome;
    *of_image = runs.of_image.outcome;
    arena_release(&arena);
    return agreement;
}

/* "An operation on anything but numbers has no value", nor has its image. */
static void try_stuck(struct tally *tally)
{
    enum outcome of_rule, of_image;

    for (size_t i = 0; i < NUMBER_STUCK; i++) {
        const struct stuck_case *it = &number_stuck[i];

        expect(tally,
               check_rule(VERSION_2, it->rule).number == REFUSED_NOTHING &&
                   agreement_on(it->rule, &of_rule, &of_image) ==
                       WITHOUT_VALUE,
               it->name, "accepted, without a value on both sides");
    }
    for (size_t i = 0; i < NUMBER_ENDLESS; i++) {
        const struct stuck_case *it = &number_endless[i];

        expect(tally,
               agreement_on(it->rule, &of_rule, &of_image) == UNDECIDED &&
                   of_rule == GAVE_UP && of_image == GAVE_UP,
               it->name, "endless on both sides");
    }
}

/* "11 now means neither 1 nor 2" */
static void try_every_version(struct tally *tally)
{
    const struct word_list rule = accepted_cases[0].rule;
    bool holds = true;

    for (size_t version = 0; version <= UINT16_MAX; version++) {
        bool known = version == FIRST_KNOWN_VERSION ||
                     version == LAST_KNOWN_VERSION;

        holds = holds &&
                is_placeless(check_rule((uint16_t)version, rule),
                             known ? REFUSED_NOTHING : REFUSED_VERSION);
    }
    expect(tally, holds, "versions", "of all, 1 and 2 are known");
}

/* 11 comes before 1, before 2 and before all that is met in reading. */
static void try_unknown_versions(struct tally *tally)
{
    static const uint16_t many[RULE_WORDS_MOST + 1];
    const struct refusal unknown = { REFUSED_VERSION, 0 };
    const struct word_list lists[] = { { NULL, 0 },
                                       { many, RULE_WORDS_MOST + 1 },
                                       accepted_cases[0].rule,
                                       number_accepted[0].rule,
                                       refused_cases[1].rule,
                                       number_refused[0].rule };
    bool holds = true;

    for (size_t i = 0; i < UNKNOWN_VERSIONS; i++)
        for (size_t j = 0; j < sizeof lists / sizeof lists[0]; j++)
            holds = holds && every_call_refuses(unknown_versions[i], lists[j],
                                                unknown);
    expect(tally, holds, "versions", "an unknown one is refused first");
}

/* What the checking call says of a head that has nothing after it. */
static enum refusal_number number_at_head(uint16_t version, size_t kind,
                                          size_t low)
{
    const uint16_t word = (uint16_t)(kind << LOW_BYTE_BITS | low);
    struct refusal refusal =
        check_rule(version, (struct word_list){ &word, 1 });

    return refusal.number;
}

/* "4 allows 10 and 11 in version 2 only" */
static void try_every_kind(struct tally *tally)
{
    bool holds = true;

    for (size_t kind = 0; kind <= LOW_BYTE_MOST; kind++) {
        bool in_first = kind >= FIRST_KIND && kind <= LAST_KIND;
        bool in_second =
            in_first || kind == NUMBER_KIND || kind == OPERATION_KIND;
        enum refusal_number first = number_at_head(VERSION_1, kind, 0);
        enum refusal_number second = number_at_head(VERSION_2, kind, 0);

        holds = holds && (first == REFUSED_KIND) == !in_first &&
                (second == REFUSED_KIND) == !in_second;
    }
    expect(tally, holds, "kinds", "each of 256 in both versions");
}

/* A number has low byte 0, an operation 0 to 2. */
static void try_every_low(struct tally *tally)
{
    bool holds = true;

    for (size_t low = 0; low <= LOW_BYTE_MOST; low++) {
        enum refusal_number number =
            number_at_head(VERSION_2, NUMBER_KIND, low);
        enum refusal_number operation =
            number_at_head(VERSION_2, OPERATION_KIND, low);

        holds = holds &&
                number ==
                    (low == 0 ? REFUSED_WORD_MISSING : REFUSED_RANGE) &&
                operation == (low <= LAST_OPERATION ? REFUSED_WORD_MISSING
                                                    : REFUSED_RANGE);
    }
    expect(tally, holds, "ranges", "each low byte of kinds 10 and 11");
}

/* "a number's two words are tested for 3 only" */
static void try_every_word(struct tally *tally)
{
    bool holds = true;

    for (size_t word = 0; word <= UINT16_MAX; word++) {
        const uint16_t high = (uint16_t)word;
        const uint16_t low = (uint16_t)~word;
        const struct word_list rule = WORD_LIST(NUMBER(high, low));
        const struct word_list image =
            WORD_LIST(0x0401, 0x0201, 0x0401, 0x0900, NUMBER(high, low),
                      0x0201, 0x0900);
        uint16_t output[LENT_WORDS];
        struct reply reply = write_image(VERSION_2, rule, output, LENT_WORDS);
        struct word_list found = { output, reply.count };

        holds = holds && words_are_equal(found, image);
    }
    expect(tally, holds, "numbers", "each word, high and low, is kept");
}

/* So many times the head, then the words. */
static bool is_refused_below(size_t times, uint16_t head,
                             struct word_list words, struct refusal refusal)
{
    struct record record;

    start_record(&record);
    put_repeated(&record.sink, (struct word_list){ &head, 1 }, times);
    put_words(&record.sink, words);
    return every_call_refuses(VERSION_2, sink_words(&record.sink), refusal);
}

/* Depth 65 is 6 for a number as for any term; its words are no terms. */
static void try_depth(struct tally *tally)
{
    const uint16_t function = 0x0201;
    const struct word_list number = WORD_LIST(ONE_NUMBER);
    const struct word_list cut = WORD_LIST(0x0A00, 0x0000);
    const struct word_list range = WORD_LIST(0x0A01);
    const struct word_list sum = WORD_LIST(ADD, ONE_NUMBER, ONE_NUMBER);
    const struct word_list kind = WORD_LIST(0x0C00);
    const struct word_list left_over = WORD_LIST(ONE_NUMBER, 0x0100);
    const struct refusal too_deep = { REFUSED_DEPTH, LAST_DEPTH };
    const struct refusal missing = { REFUSED_WORD_MISSING, LAST_DEPTH + 1 };
    const struct refusal left = { REFUSED_WORDS_LEFT, LAST_DEPTH + 2 };

    expect(tally, is_refused_below(LAST_DEPTH - 1, function, left_over, left),
           "depth", "number at depth 64 is read whole");
    expect(tally, is_refused_below(LAST_DEPTH - 1, function, cut, missing),
           "depth", "number at depth 64 without its last word");
    expect(tally, is_refused_below(LAST_DEPTH, function, number, too_deep),
           "depth", "number at depth 65");
    expect(tally, is_refused_below(LAST_DEPTH, function, range, too_deep),
           "depth", "number at depth 65, its low byte out of range");
    expect(tally, is_refused_below(LAST_DEPTH, function, kind, too_deep),
           "depth", "kind 12 at depth 65");
    expect(tally, is_refused_below(LAST_DEPTH - 1, function, sum, too_deep),
           "depth", "parts of an operation at depth 64");
    expect(tally, is_refused_below(LAST_DEPTH, ADD, number, too_deep), "depth",
           "operations down to depth 65");
}

/* A function of sums of its argument falls one word short of seven times. */
static void try_longest_image(struct tally *tally)
{
    struct record record;

    start_record(&record);
    put_sums(&record.sink, LONGEST_RULE);
    struct word_list rule = sink_words(&record.sink);
    expect(tally,
           rule.count == LONGEST_RULE &&
               measure_image(VERSION_2, rule).count == LONGEST_IMAGE,
           "images", "the longest of all");
}

void try_numbers(struct tally *tally)
{
    try_accepted(tally, VERSION_2, number_accepted, NUMBER_ACCEPTED);
    try_runs(tally, VERSION_2, run_cases,
             sizeof run_cases / sizeof run_cases[0]);
    try_refused(tally, VERSION_2, number_refused, NUMBER_REFUSED);
    try_refused(tally, VERSION_1, number_refused_in_first,
                NUMBER_REFUSED_IN_FIRST);
    for (size_t i = 0; i < NUMBER_IMAGES; i++)
        try_image(tally, VERSION_2, &number_images[i]);
    try_stuck(tally);
    try_every_version(tally);
    try_unknown_versions(tally);
    try_every_kind(tally);
    try_every_low(tally);
    try_every_word(tally);
    try_depth(tally);
    try_longest_image(tally);
}
