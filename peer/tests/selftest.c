#include "selftest.h"

#include <stdbool.h>
#include <stdlib.h>
#include <string.h>

#include "../generators/cases.h"
#include "../generators/gen_record.h"
#include "../translator/image.h"
#include "demand3.h"
#include "selftest_arguments.h"
#include "selftest_dead.h"
#include "selftest_files.h"
#include "selftest_numbers.h"
#include "tally.h"
#include "trials.h"

/* Beyond the paper's cases: values put into functions, and all five counts. */
static const struct run_case run_cases[] = {
    { "function with a value put in",
      WORD_LIST(0x0500, 0x0201, 0x0201, 0x0101, 0x0401, 0x0100, 0x0605,
                0x0000),
      WORD_LIST(0x0201, 0x0605, 0x0000),
      { .values = 4, .calls = 1, .lets = 1 } },
    { "function with two values put in",
      WORD_LIST(0x0402, 0x0202, 0x0201, 0x0602, 0x0003, 0x0102, 0x0101, 0x0100,
                0x0600, 0x0000, 0x0601, 0x0000),
      WORD_LIST(0x0201, 0x0602, 0x0003, 0x0600, 0x0000, 0x0601, 0x0000,
                0x0100),
      { .values = 4, .calls = 1 } },
    { "recursive function with a value put in",
      WORD_LIST(0x0500, 0x0605, 0x0000, 0x0301, 0x0702, 0x0100, 0x0800, 0x0000,
                0x0102, 0x0801, 0x0001, 0x0401, 0x0102, 0x0100),
      WORD_LIST(0x0301, 0x0702, 0x0100, 0x0800, 0x0000, 0x0605, 0x0000, 0x0801,
                0x0001, 0x0401, 0x0102, 0x0100),
      { .values = 2, .lets = 1 } },
    { "two plus three",
      WORD_LIST(0x0402, 0x0302, 0x0702, 0x0101, 0x0800, 0x0000, 0x0100, 0x0801,
                0x0001, 0x0601, 0x0001, 0x0402, 0x0103, 0x0100, 0x0101, 0x0601,
                0x0001, 0x0601, 0x0001, 0x0600, 0x0000, 0x0601, 0x0001, 0x0601,
                0x0001, 0x0601, 0x0001, 0x0600, 0x0000),
      WORD_LIST(0x0601, 0x0001, 0x0601, 0x0001, 0x0601, 0x0001, 0x0601, 0x0001,
                0x0601, 0x0001, 0x0600, 0x0000),
      { .values = 13, .calls = 3, .matches = 3, .built = 2 } },
};

enum { RUN_CASES = sizeof run_cases / sizeof run_cases[0] };

enum { VALUES_SO_FAR = 10, THEIR_CALLS = 20 };

/* A rule that gave up, and an image that came to a value by so many calls. */
static enum agreement after_giving_up(size_t image_calls)
{
    struct arena arena = arena_for_runs();
    const struct both_runs runs = {
        .of_rule = { .outcome = GAVE_UP,
                     .counts = { .values = VALUES_SO_FAR } },
        .of_image = { .outcome = CAME_TO_VALUE,
                      .counts = { .calls = image_calls } },
    };
    enum agreement agreement = demand3_agreement(&arena, &runs);

    arena_release(&arena);
    return agreement;
}

static void try_endless(struct tally *tally)
{
    const struct word_list calls_itself =
        WORD_LIST(0x0401, 0x0301, 0x0401, 0x0101, 0x0100, 0x0600, 0x0000);
    struct arena arena = arena_for_runs();
    struct both_runs runs = run_both(&arena, VERSION_1, calls_itself);

    expect(tally,
           runs.of_rule.outcome == GAVE_UP &&
               runs.of_image.outcome == GAVE_UP &&
               demand3_agreement(&arena, &runs) == UNDECIDED,
           "endless", "neither the rule nor its image ends");
    expect(tally, after_giving_up(THEIR_CALLS - 1) == DISAGREED, "endless",
           "the image has ended before the rule");
    expect(tally, after_giving_up(THEIR_CALLS) == UNDECIDED, "endless",
           "the image has gone as far as the rule");
    arena_release(&arena);
}

/* A word more than a rule may have is not read; without it one is missing. */
static void try_highest_place(struct tally *tally)
{
    const struct refusal too_many = { REFUSED_TOO_MANY_WORDS, 0 };
    const struct refusal missing = { REFUSED_WORD_MISSING, RULE_WORDS_MOST };
    uint16_t words[RULE_WORDS_MOST + 1];
    struct word_sink sink = sink_into(words, RULE_WORDS_MOST + 1);

    put_filler(&sink, RULE_WORDS_MOST + 1);
    struct word_list rule = sink_words(&sink);
    expect(tally, every_call_refuses(VERSION_1, rule, too_many), "places",
           "one word more than a rule may have");
    rule.count--;
    expect(tally, every_call_refuses(VERSION_1, rule, missing), "places",
           "as many words as a rule may have, and one is missing");
}

static void try_printing(struct tally *tally)
{
    const struct refusal refusal = { REFUSED_RANGE, 17 };
    FILE *file = tmpfile();
    char line[LENT_BYTES] = "";

    if (file != NULL) {
        print_refusal(file, refusal);
        rewind(file);
        line[fread(line, sizeof line[0], sizeof line - 1, file)] = '\0';
        fclose(file);
    }
    expect(tally, strcmp(line, "no 5 17\n") == 0, "places", "a refusal's line");
}

static void try_images(struct tally *tally)
{
    const struct image_case case_b = { "case B", accepted_cases[1].rule,
                                       case_b_image };

    try_image(tally, VERSION_1, &case_b);
    for (size_t i = 0; i < IMAGE_CASES; i++)
        try_image(tally, VERSION_1, &image_cases[i]);
}

/* Each call the last argument of another, with as many as it may have. */
static void put_deepest_in_image(struct word_sink *sink)
{
    for (size_t depth = 1; depth < RULE_DEPTH_MOST; depth++) {
        put_kind(sink, KIND_CALL, ARGUMENTS_MOST);
        for (size_t i = 0; i < ARGUMENTS_MOST; i++)
            put_leaf(sink);
    }
    put_leaf(sink);
}

static void try_deepest_image(struct tally *tally)
{
    uint16_t words[RULE_WORDS_MOST];
    struct word_sink sink = sink_into(words, RULE_WORDS_MOST);
    struct arena arena = arena_for_runs();

    put_deepest_in_image(&sink);
    struct both_runs runs = run_both(&arena, VERSION_1, sink_words(&sink));
    expect(tally,
           runs.refusal.number == REFUSED_NOTHING &&
               read_image(&arena, VERSION_1, runs.image).term != NULL,
           "images", "the deepest is read");
    arena_release(&arena);
}

static void try_case_n(struct tally *tally)
{
    uint16_t output[LENT_WORDS];
    struct word_list rule = accepted_cases[0].rule;

    lend_words(output);
    struct reply reply = write_image(VERSION_1, rule, output, N_SHORT_OUTPUT);
    expect(tally, is_placeless(reply.refusal, REFUSED_OUTPUT_SHORT), "case N",
           "refused with 7 words");
    expect(tally, untouched_from(output, 0), "case N", "output unchanged");
    reply = write_image(VERSION_1, rule, output, N_LONG_ENOUGH_OUTPUT);
    expect(tally, reply.count == N_LONG_ENOUGH_OUTPUT, "case N",
           "written with 8 words");
    expect(tally, untouched_from(output, N_LONG_ENOUGH_OUTPUT), "case N",
           "later words unchanged");
}

static void try_case_o(struct tally *tally)
{
    const struct refusal too_deep = { REFUSED_DEPTH, O_REFUSED_FUNCTIONS };
    uint16_t words[LENT_WORDS];
    struct word_sink refused = sink_into(words, LENT_WORDS);
    struct word_sink accepted = sink_into(words, LENT_WORDS);

    put_case_o(&refused, O_REFUSED_FUNCTIONS);
    expect(tally,
           every_call_refuses(VERSION_1, sink_words(&refused), too_deep),
           "case O", "refused with 64 functions");
    put_case_o(&accepted, O_ACCEPTED_FUNCTIONS);
    expect(tally,
           check_rule(VERSION_1, sink_words(&accepted)).number ==
               REFUSED_NOTHING,
           "case O", "accepted with 63 functions");
}

/* What the first version accepts, the second takes for the same. */
static void try_version(struct tally *tally, uint16_t version)
{
    try_accepted(tally, version, accepted_cases, ACCEPTED_CASES);
    try_runs(tally, version, run_cases, RUN_CASES);
}

int run_selftest(FILE *out)
{
    struct tally tally = { out, 0, 0 };

    try_version(&tally, VERSION_1);
    try_version(&tally, VERSION_2);
    try_refused(&tally, VERSION_1, refused_cases, REFUSED_CASES);
    try_refused(&tally, VERSION_1, place_cases, PLACE_CASES);
    try_refused(&tally, VERSION_1, dead_cases, DEAD_CASES);
    try_dead_arms(&tally);
    try_arguments(&tally);
    try_numbers(&tally);
    try_highest_place(&tally);
    try_printing(&tally);
    try_endless(&tally);
    try_images(&tally);
    try_deepest_image(&tally);
    try_case_n(&tally);
    try_case_o(&tally);
    try_files(&tally);
    if (tally.failed > 0) {
        fprintf(out, "selftest: %zu failed\n", tally.failed);
        return EXIT_FAILURE;
    }
    fprintf(out, "selftest: %zu passed\n", tally.passed);
    return EXIT_SUCCESS;
}
