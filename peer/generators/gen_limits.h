/* Rules at each limit, and one step beyond it. */
#ifndef PEER_GEN_LIMITS_H
#define PEER_GEN_LIMITS_H

#include "gen_record.h"

void write_limits(struct outlet *out);

#endif
