/*
 * The shapes of rules that are tried besides the well-formed ones: near a
 * bound of the paper, or where its translation takes one way or another. Each
 * starts the record afresh, and the maker's sink is the record's.
 */
#ifndef PEER_FUZZ_SHAPES_H
#define PEER_FUZZ_SHAPES_H

#include "gen_record.h"
#include "maker.h"

/* Some end within depth 64, some beyond it. */
void put_deep(struct maker *maker, struct record *record);

/* Heads with many arguments or arms, often about as many as may be. */
void put_wide(struct maker *maker, struct record *record);

/* Variables near the number bound; often about as many as have names. */
void put_edges(struct maker *maker, struct record *record);

/* Constructors of atoms beside constructors with unfinished parts. */
void put_atoms(struct maker *maker, struct record *record);

/* What comes to a number; without numbers, as the well-formed ones. */
void put_numeric(struct maker *maker, struct record *record);

/* From a thousand words to somewhat more than are allowed. */
void put_long(struct maker *maker, struct record *record);

#endif
