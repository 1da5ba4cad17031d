#include "selftest_dead.h"

#include "../generators/cases.h"
#include "../generators/gen_dead.h"
#include "../generators/gen_record.h"
#include "../translator/image.h"

struct dead_among_many {
    const char *claim;
    struct many_arms arms;
    struct refusal refusal;
};

/* The subject of the living arm has two words and two for each argument. */
static const struct dead_among_many dead_among_many[] = {
    { "second arm of two dead", { 2, 1, 0 }, { REFUSED_DEAD_ARM, 8 } },
    { "second arm of 32 dead", { 32, 1, 0 }, { REFUSED_DEAD_ARM, 8 } },
    { "32nd arm dead by the first", { 32, 31, 0 }, { REFUSED_DEAD_ARM, 128 } },
    { "32nd arm dead by the 16th", { 32, 31, 15 }, { REFUSED_DEAD_ARM, 134 } },
    { "32nd arm dead by the 31st", { 32, 31, 30 }, { REFUSED_DEAD_ARM, 140 } },
    { "32nd arm of 33 dead", { 33, 31, 0 }, { REFUSED_RANGE, 0 } },
};

static void try_dead_among_many(struct tally *tally)
{
    const size_t count = sizeof dead_among_many / sizeof dead_among_many[0];

    for (size_t i = 0; i < count; i++) {
        const struct dead_among_many *it = &dead_among_many[i];
        struct record record;

        start_record(&record);
        put_many_arms(&record.sink, it->arms);
        expect(tally,
               every_call_refuses(VERSION_1, sink_words(&record.sink),
                                  it->refusal),
               "dead arms", it->claim);
    }
}

/* All 32 arms differ, and the subject has six arguments. */
static void try_living_among_many(struct tally *tally)
{
    const struct many_arms arms = { 32, 31, 31 };
    const size_t image_words = 313;
    struct record record;

    start_record(&record);
    put_many_arms(&record.sink, arms);
    struct reply reply = measure_image(VERSION_1, sink_words(&record.sink));
    expect(tally, reply.count == image_words, "dead arms",
           "32 arms of five tags are accepted");
}

/* Dead exactly if both tag and arity are the first arm's. */
static bool second_is_dead_if_equal(struct arm first, struct arm second)
{
    const struct refusal nothing = { REFUSED_NOTHING, 0 };
    const struct refusal dead = { REFUSED_DEAD_ARM, 8 };
    bool equal = first.tag == second.tag && first.arity == second.arity;
    struct record record;

    start_record(&record);
    put_two_arms(&record.sink, first, second);
    return is_refusal(check_rule(VERSION_1, sink_words(&record.sink)),
                      equal ? dead : nothing);
}

/* Of the first tags every one with every arity. */
static struct arm numbered_arm(size_t number)
{
    const size_t arities = ARGUMENTS_MOST + 1;

    return (struct arm){ number / arities, number % arities };
}

static void try_every_pair(struct tally *tally)
{
    const size_t numbers = 20 * (ARGUMENTS_MOST + 1);
    bool by_tag = true;
    bool by_both = true;

    for (size_t i = 0; i <= LOW_BYTE_MOST; i++)
        for (size_t j = 0; j <= LOW_BYTE_MOST; j++)
            by_tag = by_tag && second_is_dead_if_equal((struct arm){ i, 3 },
                                                       (struct arm){ j, 3 });
    for (size_t i = 0; i < numbers; i++)
        for (size_t j = 0; j < numbers; j++)
            by_both = by_both && second_is_dead_if_equal(numbered_arm(i),
                                                         numbered_arm(j));
    expect(tally, by_tag, "dead arms", "every two tags: dead if equal");
    expect(tally, by_both, "dead arms", "tags and arities: dead if both equal");
}

/* Up to the dead arm's second word one is missing; from then on, 18. */
static void try_beginnings(struct tally *tally)
{
    const struct refused_case *it = &dead_cases[0];
    struct word_list beginning = it->rule;
    bool holds = true;

    for (beginning.count = 1; beginning.count < it->rule.count;
         beginning.count++) {
        const struct refusal missing = { REFUSED_WORD_MISSING,
                                         beginning.count };
        bool is_short = beginning.count <= it->refusal.place;
        struct refusal refusal = is_short ? missing : it->refusal;

        holds = holds && every_call_refuses(VERSION_1, beginning, refusal);
    }
    expect(tally, holds, "dead arms", "every beginning of a rule");
}

/* A function in the second arm's body is too deep by one. */
static void try_at_depth(struct tally *tally, size_t second_tag,
                         struct refusal refusal, const char *claim)
{
    struct record record;

    start_record(&record);
    put_depth_for_match(&record.sink);
    put_two_arms(&record.sink, (struct arm){ 0, 0 },
                 (struct arm){ second_tag, 0 });
    record.sink.count -= FILLER_WORDS_LEAST; /* a function for the leaf */
    put_kind(&record.sink, KIND_FUNCTION, 1);
    put_leaf(&record.sink);
    expect(tally,
           every_call_refuses(VERSION_1, sink_words(&record.sink), refusal),
           "dead arms", claim);
}

void try_dead_arms(struct tally *tally)
{
    const struct refusal dead = { REFUSED_DEAD_ARM, 70 };
    const struct refusal too_deep = { REFUSED_DEPTH, 72 };

    try_dead_among_many(tally);
    try_living_among_many(tally);
    try_every_pair(tally);
    try_beginnings(tally);
    try_at_depth(tally, 0, dead, "dead before its body is too deep");
    try_at_depth(tally, 1, too_deep, "not dead, and its body too deep");
}
