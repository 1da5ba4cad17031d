/* Every refusal from 1 to 8, each at several places. */
#ifndef PEER_GEN_FAULTS_H
#define PEER_GEN_FAULTS_H

#include "gen_record.h"

void write_faults(struct outlet *out);

#endif
