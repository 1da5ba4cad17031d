/*
 * What the calls with an output do where it overlaps what else is lent, and where it only touches it: each is made with
 * the output at every place near the input, on the paper's case B.
 */
#include <stdbool.h>
#include <stddef.h>
#include <stdint.h>
#include <string.h>

#include "expect.h"
#include "peatnickel.h"

/*
 * Input and output lie in one room that is painted before each call. The whole room is compared afterwards, so that
 * every byte around the two is a guard. HOME is far enough in for the longest output to end before the input; PAST is
 * how far the output is moved beyond the places where it touches the input.
 */
enum { ROOM_BYTES = 256, HOME = 96, PAST = 4, PAINT = 0xA5, UNKNOWN_VERSION = 3, NO_FORM = 2 };

/* Case B: the rule, and its file as the paper prints it. */
static const uint16_t rule[] = { 0x0401, 0x0201, 0x0100, 0x0600, 0x0000 };
static const uint8_t file[] = { 0x4C, 0x52, 0x53, 0x01, 0x00, 0x05, 0x00, 0x01, 0x04,
                                0x01, 0x02, 0x00, 0x01, 0x00, 0x06, 0x00, 0x00 };

struct region {
    size_t at; /* in bytes, from the room's start */
    size_t count;
    size_t size; /* of an element, in bytes */
};

/* The reply is unpacking's, with a version above the count; the other calls' has none. */
typedef uint64_t (*call)(void *out, size_t out_count, const void *in, size_t in_count);

/* A call with an output: as the header's front, which tests for overlap, and as the proved function behind it. */
struct tried {
    const char *name;
    call front;
    call proved;
    size_t out_size;
    size_t in_size;
    const void *in;
    size_t in_count;
};

static uint64_t front_write(void *out, size_t out_count, const void *in, size_t in_count)
{
    return peatnickel_write(out, out_count, PEATNICKEL_LANGUAGE_1, in, in_count);
}

static uint64_t proved_write(void *out, size_t out_count, const void *in, size_t in_count)
{
    return peatnickel_write_apart(out, out_count, PEATNICKEL_LANGUAGE_1, in, in_count);
}

static uint64_t front_pack(void *out, size_t out_count, const void *in, size_t in_count)
{
    return peatnickel_pack(out, out_count, PEATNICKEL_RULES, PEATNICKEL_LANGUAGE_1, in, in_count);
}

static uint64_t proved_pack(void *out, size_t out_count, const void *in, size_t in_count)
{
    return peatnickel_pack_apart(out, out_count, PEATNICKEL_RULES, PEATNICKEL_LANGUAGE_1, in, in_count);
}

static uint64_t front_unpack(void *out, size_t out_count, const void *in, size_t in_count)
{
    return peatnickel_unpack(out, out_count, PEATNICKEL_RULES, in, in_count);
}

static uint64_t proved_unpack(void *out, size_t out_count, const void *in, size_t in_count)
{
    return peatnickel_unpack_apart(out, out_count, PEATNICKEL_RULES, in, in_count);
}

static bool has_byte(struct region region, size_t at)
{
    return at >= region.at && at < region.at + region.count * region.size;
}

/* Byte by byte, and so by other means than the header's test. */
static bool share_a_byte(struct region a, struct region b)
{
    for (size_t at = 0; at < ROOM_BYTES; at++)
        if (has_byte(a, at) && has_byte(b, at))
            return true;
    return false;
}

/* One call of the front; it must do what the proved function does on buffers of their own, or refuse. */
static void try_places(const struct tried *tried, struct region out, struct region in)
{
    static uint16_t room[ROOM_BYTES / sizeof(uint16_t)];
    static uint16_t own_out[ROOM_BYTES / sizeof(uint16_t)];
    static unsigned char expected[ROOM_BYTES];
    unsigned char *bytes = (unsigned char *)room;
    uint64_t reply = PEATNICKEL_REFUSALS + PEATNICKEL_WRONG_USE;

    memset(room, PAINT, sizeof room);
    memcpy(bytes + in.at, tried->in, in.count * in.size);
    memcpy(expected, room, sizeof room);
    if (!share_a_byte(out, in)) {
        memset(own_out, PAINT, sizeof own_out);
        reply = tried->proved(own_out, out.count, tried->in, in.count);
        memcpy(expected + out.at, own_out, out.count * out.size);
    }
    expect(tried->front(bytes + out.at, out.count, bytes + in.at, in.count) == reply, "reply by place", tried->name);
    expect(memcmp(room, expected, sizeof room) == 0, "buffers and what is around them, by place", tried->name);
}

/* The output of so many elements at each place that is aligned for it, from before the input to behind it. */
static void try_lengths(const struct tried *tried, size_t out_count, size_t in_count)
{
    struct region in = { HOME, in_count, tried->in_size };
    struct region out = { 0, out_count, tried->out_size };
    size_t step = tried->out_size;
    size_t last = HOME + in.count * in.size + PAST * step;

    for (out.at = HOME - (out.count + PAST) * step; out.at <= last; out.at += step)
        try_places(tried, out, in);
}

/* No element, one, one too few, just enough, and some to spare; and the same beside an empty input. */
static void try_call(const struct tried *tried)
{
    static uint16_t out[ROOM_BYTES];
    const uint64_t reply = tried->proved(out, ROOM_BYTES / tried->out_size, tried->in, tried->in_count);
    const size_t needed = peatnickel_reply_of(reply);
    const size_t counts[] = { 0, 1, needed - 1, needed, needed + PAST };

    expect((needed + 2 * PAST) * tried->out_size <= HOME, "there is room before the input", tried->name);
    for (size_t i = 0; i < sizeof counts / sizeof counts[0]; i++) {
        try_lengths(tried, counts[i], tried->in_count);
        try_lengths(tried, counts[i], 0);
    }
}

static const struct tried calls[] = {
    { "write", front_write, proved_write, sizeof rule[0], sizeof rule[0], rule, sizeof rule / sizeof rule[0] },
    { "pack", front_pack, proved_pack, sizeof file[0], sizeof rule[0], rule, sizeof rule / sizeof rule[0] },
    { "unpack", front_unpack, proved_unpack, sizeof rule[0], sizeof file[0], file, sizeof file },
};

/* The test for overlap itself, also with counts that no memory has. */
static void try_apart(void)
{
    const uint16_t words[8] = { 0 };
    const size_t size = sizeof words[0];
    const struct {
        const char *what;
        const uint16_t *a;
        size_t a_count;
        const uint16_t *b;
        size_t b_count;
        bool apart;
    } regions[] = {
        { "side by side", words, 4, words + 4, 4, true },
        { "one word shared", words, 5, words + 4, 4, false },
        { "one within the other", words, 8, words + 4, 1, false },
        { "the same", words, 8, words, 8, false },
        { "an empty one within the other", words, 8, words + 4, 0, true },
        { "two empty ones", words, 0, words, 0, true },
        { "an empty one that is nowhere", words, 8, NULL, 0, true },
        { "the most words from below", words, SIZE_MAX, words + 7, 1, false },
        { "half of the most, whose bytes wrap to none", words, SIZE_MAX / 2 + 1, words + 7, 1, false },
        { "the most words from above", words + 7, SIZE_MAX, words, 7, true },
        { "the most words of both", words, SIZE_MAX, words, SIZE_MAX, false },
    };

    for (size_t i = 0; i < sizeof regions / sizeof regions[0]; i++) {
        int there = peatnickel_apart(regions[i].a, regions[i].a_count, size, regions[i].b, regions[i].b_count, size);
        int back = peatnickel_apart(regions[i].b, regions[i].b_count, size, regions[i].a, regions[i].a_count, size);

        expect(there == regions[i].apart && back == regions[i].apart, regions[i].what, "apart");
    }
    expect(peatnickel_apart(words, 8, 0, words, 8, size), "elements of no bytes", "apart");
}

/* Of an overlap nothing else is told: not that there is no such version or form, nor a fault of what is lent. */
static void try_first_test(void)
{
    const uint32_t overlap = PEATNICKEL_REFUSALS + PEATNICKEL_WRONG_USE;
    uint16_t words[PEATNICKEL_FILE_BYTES(0)] = { 0 };
    const size_t count = sizeof words / sizeof words[0];
    uint8_t *bytes = (uint8_t *)words;

    expect(peatnickel_write(words, count, UNKNOWN_VERSION, words, count) == overlap, "write", "first test");
    expect(peatnickel_pack(bytes, sizeof words, PEATNICKEL_RULES, UNKNOWN_VERSION, words, count) == overlap, "pack",
           "first test");
    expect(peatnickel_pack(bytes, sizeof words, NO_FORM, UNKNOWN_VERSION, words, count) == overlap, "pack, no form",
           "first test");
    expect(peatnickel_unpack(words, count, PEATNICKEL_RULES, bytes, sizeof words) == overlap, "unpack", "first test");
    expect(words[0] == 0 && memcmp(words, words + 1, sizeof words - sizeof words[0]) == 0, "untouched", "first test");
}

int main(void)
{
    for (size_t i = 0; i < sizeof calls / sizeof calls[0]; i++)
        try_call(&calls[i]);
    try_apart();
    try_first_test();
    return tally();
}
