/* Free terms: well scoped, whatever they come to. */
#ifndef PEER_GEN_FREE_H
#define PEER_GEN_FREE_H

#include "maker.h"

void put_free(struct maker *maker, struct spot spot);

#endif
