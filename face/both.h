/* One call, of packing or unpacking, made on both sides and compared: the proved archive, and the second translator. */
#ifndef FACE_BOTH_H
#define FACE_BOTH_H

#include <stddef.h>
#include <stdint.h>

enum { PLENTY = 40 }; /* an output's elements that are too many */

enum act { UNPACKING, PACKING, ACTS };

/* The bytes of an element of the output. */
extern const size_t element_bytes[ACTS];

struct call {
    enum act act;
    uint32_t form;
    uint16_t version; /* that packing is told; unpacking is told none */
    size_t given;     /* the file's bytes, or the words */
    size_t room;      /* the output's words, or bytes */
};

/* A call, by the file's number and by its own among those on that file, from 1 on. */
struct moment {
    size_t file;
    size_t call;
};

/* What is told where a difference is found. */
void begin_seed(uint32_t of);
void begin_file(size_t number);

/* What the calls that follow are given, both sides alike. */
void give_bytes(const uint8_t *bytes, size_t count);
void give_words(const uint16_t *words, size_t count);

/*
 * The reply of both sides, as a number of the face: unpacking's with the version above the count, packing's without.
 * At a difference it tells of it and stops.
 */
uint64_t make_call(const struct call *call);

/* What the last call left at the front of its output. */
const uint8_t *output(void);

/* Tells of a call, with what it was given and both replies, and stops. */
void tell_and_stop(const struct call *call, uint64_t proved_reply, uint64_t peer_reply, const char *what);

/* Makes something wrong on the proved side at one call, to show that it is found. */
void plant_damage(const char *name, struct moment at);

#endif
