/* Random rules; those that are written to a corpus are always the same. */
#ifndef PEER_GEN_RANDOM_H
#define PEER_GEN_RANDOM_H

#include "gen_record.h"
#include "maker.h"

/* The maker's sink is the record's in all of these. */
void put_well_formed(struct maker *maker, struct record *record);
void put_random_words(struct maker *maker, struct record *record);

/* Changes one word; the record has at least one. */
void damage_word(struct maker *maker, struct record *record);

void write_random_rules(struct outlet *out);

/* Of the second version: numbers and operations among all the older forms. */
void write_random_numbers(struct outlet *out);

#endif
