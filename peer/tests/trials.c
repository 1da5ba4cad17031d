#include "trials.h"

#include <stdbool.h>

#include "../translator/image.h"
#include "demand3.h"

static void try_writing(struct tally *tally, uint16_t version,
                        const struct accepted_case *it)
{
    uint16_t output[LENT_WORDS];

    lend_words(output);
    struct reply reply = write_image(version, it->rule, output, LENT_WORDS);
    expect(tally, check_rule(version, it->rule).number == REFUSED_NOTHING,
           it->name, "accepted");
    expect(tally, measure_image(version, it->rule).count == it->image_count,
           it->name, "image words by the measuring call");
    expect(tally, reply.count == it->image_count, it->name,
           "image words by the writing call");
    expect(tally, untouched_from(output, it->image_count), it->name,
           "words past the image are unchanged");
    lend_words(output);
    reply = write_image(version, it->rule, output, it->image_count - 1);
    expect(tally,
           is_placeless(reply.refusal, REFUSED_OUTPUT_SHORT) &&
               untouched_from(output, 0),
           it->name, "an output one word short is refused and unchanged");
}

static void try_running(struct tally *tally, uint16_t version,
                        const struct accepted_case *it)
{
    struct arena arena = arena_for_runs();
    struct both_runs runs = run_both(&arena, version, it->rule);
    bool has_value = runs.of_rule.outcome == CAME_TO_VALUE;

    expect(tally,
           has_value && words_are_equal(value_words(&arena, runs.of_rule.value),
                                        it->value),
           it->name, "value");
    expect(tally, runs.of_image.counts.calls == it->applications, it->name,
           "applications");
    expect(tally, demand3_agreement(&arena, &runs) == AGREED, it->name,
           "demand 3");
    expect(tally, image_is_short_enough(it->rule, runs.image), it->name,
           "image at most seven times the rule");
    arena_release(&arena);
}

void try_accepted(struct tally *tally, uint16_t version,
                  const struct accepted_case *cases, size_t count)
{
    for (size_t i = 0; i < count; i++) {
        try_writing(tally, version, &cases[i]);
        try_running(tally, version, &cases[i]);
    }
}

void try_refused(struct tally *tally, uint16_t version,
                 const struct refused_case *cases, size_t count)
{
    for (size_t i = 0; i < count; i++)
        expect(tally,
               every_call_refuses(version, cases[i].rule, cases[i].refusal),
               cases[i].name, "refused by every call, with its place");
}

static bool counts_are(const struct counts *found,
                       const struct counts *expected)
{
    return found->values == expected->values &&
           found->calls == expected->calls && found->lets == expected->lets &&
           found->matches == expected->matches &&
           found->built == expected->built;
}

static bool runs_as_told(uint16_t version, const struct run_case *it)
{
    struct arena arena = arena_for_runs();
    struct both_runs runs = run_both(&arena, version, it->rule);
    bool holds =
        runs.of_rule.outcome == CAME_TO_VALUE &&
        words_are_equal(value_words(&arena, runs.of_rule.value), it->value) &&
        counts_are(&runs.of_rule.counts, &it->counts) &&
        demand3_agreement(&arena, &runs) == AGREED;

    arena_release(&arena);
    return holds;
}

void try_runs(struct tally *tally, uint16_t version,
              const struct run_case *cases, size_t count)
{
    for (size_t i = 0; i < count; i++)
        expect(tally, runs_as_told(version, &cases[i]), "runs",
               cases[i].claim);
}

void try_image(struct tally *tally, uint16_t version,
               const struct image_case *it)
{
    uint16_t output[LENT_WORDS];
    struct reply reply = write_image(version, it->rule, output, LENT_WORDS);
    struct word_list found = { output, reply.count };

    expect(tally, words_are_equal(found, it->image), it->name, "whole image");
}
