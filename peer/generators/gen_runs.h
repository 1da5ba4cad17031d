/* Rules chosen for what their runs do. */
#ifndef PEER_GEN_RUNS_H
#define PEER_GEN_RUNS_H

#include "gen_record.h"

void write_runs(struct outlet *out);

#endif
