/* Rules with dead arms, and rules whose arms are nearly dead. */
#ifndef PEER_GEN_DEAD_H
#define PEER_GEN_DEAD_H

#include "../translator/words.h"
#include "gen_arms.h"
#include "gen_record.h"

/* A match with two arms. */
void put_two_arms(struct word_sink *sink, struct arm first,
                  struct arm second);

/*
 * A match whose arms share five tags, each arm's place being its body's tag.
 * The dead arm has the tag and arity of the living one, as the subject has;
 * none is dead if the two are one.
 */
struct many_arms {
    size_t count;
    size_t dead;
    size_t living;
};

void put_many_arms(struct word_sink *sink, struct many_arms arms);

/* Functions, so that a match after them has its parts at the last depth. */
void put_depth_for_match(struct word_sink *sink);

void write_dead_arms(struct outlet *out);

#endif
