/* Worked rules, each tried in every way that it can be. */
#ifndef PEER_TRIALS_H
#define PEER_TRIALS_H

#include <stddef.h>
#include <stdint.h>

#include "../generators/cases.h"
#include "../translator/run.h"
#include "../translator/words.h"
#include "tally.h"

/* A rule's value and all five counts of its run. */
struct run_case {
    const char *claim;
    struct word_list rule;
    struct word_list value;
    struct counts counts;
};

void try_accepted(struct tally *tally, uint16_t version,
                  const struct accepted_case *cases, size_t count);
void try_refused(struct tally *tally, uint16_t version,
                 const struct refused_case *cases, size_t count);
void try_runs(struct tally *tally, uint16_t version,
              const struct run_case *cases, size_t count);
void try_image(struct tally *tally, uint16_t version,
               const struct image_case *it);

#endif
