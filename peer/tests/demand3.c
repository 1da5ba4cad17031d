#include "demand3.h"

#include <stdlib.h>

#include "../generators/corpus.h"
#include "../translator/image.h"

enum {
    IMAGE_WORDS_PER_RULE_WORD = 7,
    CALLS_FOR_EACH_PASSED_ON = 2,
    RULE_STEPS = 20000,
    IMAGE_STEPS_PER_RULE_STEP = 32,
    RUN_DEPTH = 1000,
    VALUE_WORDS_MOST = 1 << 20,
    RUN_MEMORY = 1 << 27
};

struct figures {
    size_t accepted;
    size_t came_to_value;
    size_t agreed;
    size_t without_value;
    size_t undecided;
};

struct arena arena_for_runs(void)
{
    return arena_with_limit(RUN_MEMORY);
}

static struct word_list image_words(struct arena *arena,
                                    const struct term *rule)
{
    uint16_t *words = arena_take(arena, IMAGE_WORDS_MOST * sizeof words[0]);
    struct word_sink sink = sink_into(words, IMAGE_WORDS_MOST);

    put_image(&sink, rule);
    return sink_words(&sink);
}

static struct run_result run_image(struct arena *arena, uint16_t version,
                                   struct word_list image)
{
    const struct bounds bounds = { RULE_STEPS * IMAGE_STEPS_PER_RULE_STEP,
                                   RUN_DEPTH };
    struct reading reading = read_image(arena, version, image);

    if (reading.term == NULL) /* not an image at all, so it has no value */
        return (struct run_result){ .outcome = NO_VALUE };
    return run_term(arena, LAYOUT_IMAGE, reading.term, bounds);
}

struct both_runs run_both(struct arena *arena, uint16_t version,
                          struct word_list rule)
{
    const struct bounds bounds = { RULE_STEPS, RUN_DEPTH };
    struct reading reading = read_rule(arena, version, rule);
    struct both_runs runs = { .refusal = reading.refusal,
                              .of_rule = { .outcome = NO_VALUE },
                              .of_image = { .outcome = NO_VALUE } };

    if (reading.term == NULL)
        return runs;
    runs.image = image_words(arena, reading.term);
    runs.of_rule = run_term(arena, LAYOUT_RULE, reading.term, bounds);
    runs.of_image = run_image(arena, version, runs.image);
    return runs;
}

static struct word_sink value_sink(struct arena *arena)
{
    uint16_t *words = arena_take(arena, VALUE_WORDS_MOST * sizeof words[0]);

    return sink_into(words, VALUE_WORDS_MOST);
}

struct word_list value_words(struct arena *arena, const struct term *value)
{
    struct word_sink sink = value_sink(arena);

    put_term(&sink, value);
    if (sink_has_overflowed(&sink))
        return (struct word_list){ NULL, 0 };
    return sink_words(&sink);
}

static struct word_list carried_words(struct arena *arena,
                                      const struct term *value)
{
    struct word_sink sink = value_sink(arena);

    put_carried_form(&sink, value);
    if (sink_has_overflowed(&sink))
        return (struct word_list){ NULL, 0 };
    return sink_words(&sink);
}

/* What is passed on to a continuation takes two calls; a let or match, one. */
static size_t image_calls(const struct counts *rule)
{
    size_t passed_on = rule->values + rule->calls + rule->built;

    return CALLS_FOR_EACH_PASSED_ON * passed_on + rule->lets + rule->matches;
}

static bool counts_agree(const struct counts *rule, const struct counts *image)
{
    return image->calls == image_calls(rule) && image->lets == rule->lets &&
           image->matches == rule->matches;
}

/*
 * "a controller can't report a decision for a rule that the bench finds stuck
 * or endless": a rule that gave up has gone past the counts that its image's
 * value would tell.
 */
static bool image_ended_first(const struct both_runs *runs)
{
    return runs->of_rule.outcome == GAVE_UP &&
           runs->of_image.outcome == CAME_TO_VALUE &&
           runs->of_image.counts.calls < image_calls(&runs->of_rule.counts);
}

static enum agreement values_agreement(struct arena *arena,
                                       const struct both_runs *runs)
{
    struct word_list expected = carried_words(arena, runs->of_rule.value);
    struct word_list found = value_words(arena, runs->of_image.value);

    if (expected.count == 0 || found.count == 0)
        return UNDECIDED;
    if (!words_are_equal(expected, found) ||
        !counts_agree(&runs->of_rule.counts, &runs->of_image.counts))
        return DISAGREED;
    return AGREED;
}

enum agreement demand3_agreement(struct arena *arena,
                                 const struct both_runs *runs)
{
    if (image_ended_first(runs))
        return DISAGREED;
    if (runs->of_rule.outcome == GAVE_UP || runs->of_image.outcome == GAVE_UP)
        return UNDECIDED;
    if (runs->of_rule.outcome != runs->of_image.outcome)
        return DISAGREED;
    if (runs->of_rule.outcome == NO_VALUE)
        return WITHOUT_VALUE;
    return values_agreement(arena, runs);
}

bool image_is_short_enough(struct word_list rule, struct word_list image)
{
    return image.count <= IMAGE_WORDS_PER_RULE_WORD * rule.count;
}

/* False on the first disagreement. */
static bool try_rule(uint16_t version, struct word_list rule,
                     struct figures *by_version)
{
    struct arena arena = arena_for_runs();
    struct both_runs runs = run_both(&arena, version, rule);
    bool fine = true;

    if (runs.refusal.number == REFUSED_NOTHING) {
        enum agreement agreement = demand3_agreement(&arena, &runs);
        struct figures *figures = &by_version[version];

        figures->accepted++;
        figures->came_to_value += runs.of_rule.outcome == CAME_TO_VALUE;
        figures->agreed += agreement == AGREED;
        figures->without_value += agreement == WITHOUT_VALUE;
        figures->undecided += agreement == UNDECIDED;
        fine = agreement != DISAGREED &&
               image_is_short_enough(rule, runs.image);
    }
    arena_release(&arena);
    return fine;
}

static void print_figures(FILE *out, const struct figures *figures)
{
    fprintf(out, "accepted %zu\n", figures->accepted);
    fprintf(out, "came to a value %zu\n", figures->came_to_value);
    fprintf(out, "agreed %zu\n", figures->agreed);
    fprintf(out, "without a value, image too %zu\n", figures->without_value);
    fprintf(out, "gave up %zu\n", figures->undecided);
}

/* An unknown version's rules are refused, so they have no figures. */
static void print_all_figures(FILE *out, size_t records,
                              const struct figures *by_version)
{
    fprintf(out, "records %zu\n", records);
    for (int version = VERSION_1; version <= VERSION_2; version++) {
        fprintf(out, "version %d\n", version);
        print_figures(out, &by_version[version]);
    }
}

int demand3_over_corpus(FILE *in, FILE *out)
{
    struct corpus *corpus = open_corpus(in);
    struct figures by_version[VERSION_2 + 1] = { 0 };
    size_t records = 0;
    bool fine = true;

    while (fine && next_record(corpus)) {
        fine = try_rule(record_version(corpus), record_words(corpus),
                        by_version);
        records++;
    }
    print_all_figures(out, records, by_version);
    if (!fine) {
        fprintf(out, "disagreement at record %zu, version %u\n", records - 1,
                (unsigned)record_version(corpus));
        print_words(out, record_words(corpus));
    }
    return close_corpus(corpus) && fine ? EXIT_SUCCESS : EXIT_FAILURE;
}
