/* Refusals 3 to 8 and 18 in every part of every form, near and far off. */
#ifndef PEER_GEN_PLACES_H
#define PEER_GEN_PLACES_H

#include "gen_record.h"

void write_places(struct outlet *out);

/* Of the second version, at numbers and operations and around them. */
void write_number_places(struct outlet *out);

#endif
