/*
 * Painted outputs, and the replies of calls on them: all that a reply does not name has to keep its paint. For the one
 * file of a test program that makes the calls.
 */
#ifndef FACE_PAINTED_H
#define FACE_PAINTED_H

#include <stdbool.h>
#include <stddef.h>
#include <stdint.h>
#include <string.h>

#include "../peer/translator/words.h"
#include "expect.h"
#include "number.h"
#include "peatnickel.h"

enum {
    GUARD = 8, /* elements before an output that no call is lent */
    SPARE = 8, /* words more than any reply fills */
    ROOM = PEATNICKEL_IMAGE_WORDS + SPARE,
    FILE_ROOM = PEATNICKEL_FILE_BYTES(ROOM),
    LAST_REFUSAL = PEATNICKEL_DEAD_ARM
};

static uint16_t words_area[GUARD + ROOM];
static uint8_t bytes_area[GUARD + FILE_ROOM];
static uint16_t *const words_out = words_area + GUARD;
static uint8_t *const bytes_out = bytes_area + GUARD;

static bool given[LAST_REFUSAL + 1]; /* the refusals that were seen */

/* A reply is what it has to be; a refusal is noted as seen. */
static void expect_reply(uint64_t reply, uint64_t expected, const char *what, const char *name)
{
    const uint32_t number = peatnickel_reply_of(reply);

    expect(reply == expected, what, name);
    if (peatnickel_is_refusal(number) && peatnickel_refusal_of(number) <= LAST_REFUSAL)
        given[peatnickel_refusal_of(number)] = true;
}

/* The refusals that were seen are those of a list. */
static void expect_given(const uint32_t *numbers, size_t count)
{
    for (uint32_t number = 0; number <= LAST_REFUSAL; number++) {
        bool listed = false;

        for (size_t i = 0; i < count; i++)
            listed = listed || numbers[i] == number;
        expect(given[number] == listed, "each refusal was given, and no other", "refusals");
    }
}

/* All refusals but 3 to 8 and 18 carry place 0. */
static uint32_t placeless(uint32_t number)
{
    return number_of_refusal(number, 0);
}

/* Paint that differs from place to place. */
static uint16_t word_paint(size_t i)
{
    return (uint16_t)(0xA500 + i * 7);
}

static uint8_t byte_paint(size_t i)
{
    return (uint8_t)(0x5A + i * 7);
}

static void paint(void)
{
    for (size_t i = 0; i < GUARD + ROOM; i++)
        words_area[i] = word_paint(i);
    for (size_t i = 0; i < GUARD + FILE_ROOM; i++)
        bytes_area[i] = byte_paint(i);
}

/* All words and bytes have their paint, but so many at the front of each output. */
static bool painted_but(size_t words, size_t bytes)
{
    for (size_t i = 0; i < GUARD + ROOM; i++)
        if ((i < GUARD || i >= GUARD + words) && words_area[i] != word_paint(i))
            return false;
    for (size_t i = 0; i < GUARD + FILE_ROOM; i++)
        if ((i < GUARD || i >= GUARD + bytes) && bytes_area[i] != byte_paint(i))
            return false;
    return true;
}

static bool painted(void)
{
    return painted_but(0, 0);
}

static bool front_is(struct word_list expected)
{
    return memcmp(words_out, expected.words, expected.count * sizeof words_out[0]) == 0;
}

#endif
