/* A refusal, and a reply of the second translator, as the number that the face gives for it. */
#ifndef FACE_NUMBER_H
#define FACE_NUMBER_H

#include <stddef.h>
#include <stdint.h>

#include "../peer/translator/file.h"
#include "../peer/translator/rule.h"
#include "peatnickel.h"

static inline uint32_t number_of_refusal(uint32_t number, size_t place)
{
    return PEATNICKEL_REFUSALS + number + PEATNICKEL_REFUSALS * (uint32_t)place;
}

/* The count, where nothing was refused. */
static inline uint32_t number_of(struct refusal refusal, size_t count)
{
    return refusal.number == REFUSED_NOTHING ? (uint32_t)count : number_of_refusal(refusal.number, refusal.place);
}

/* Unpacking's: the version stands above it, and there is none where it was refused. */
static inline uint64_t number_of_unpacking(struct unpacking unpacked)
{
    return PEATNICKEL_VERSIONS * unpacked.version + number_of(unpacked.reply.refusal, unpacked.reply.count);
}

#endif
