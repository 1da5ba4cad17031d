/* Fitting terms: calls and matches find what they need. */
#ifndef PEER_GEN_FITTING_H
#define PEER_GEN_FITTING_H

#include "maker.h"

void put_fitting(struct maker *maker, size_t type, struct spot spot);

/* Data or, as often, a function. */
size_t some_type(struct maker *maker);

#endif
