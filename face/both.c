/*
 * One call, of packing or unpacking, made on both sides and compared. Each side is lent buffers of its own, and the
 * whole of them is looked at: the output and its guards, which are painted, and what was lent to be read, with a tail
 * behind it.
 */
#include "both.h"

#include <stdbool.h>
#include <stdio.h>
#include <stdlib.h>
#include <string.h>

#include "../peer/generators/fuzz_files.h"
#include "number.h"
#include "peatnickel.h"

enum {
    GUARD_WORDS = 16, /* before an output and behind it */
    GUARD = GUARD_WORDS * BYTES_OF_A_WORD,
    OUTPUT_MOST = MADE_BYTES_MOST + PLENTY * BYTES_OF_A_WORD,
    AREA_WORDS = 2 * GUARD_WORDS + OUTPUT_MOST / BYTES_OF_A_WORD + 1,
    PAINT_FIRST = 0xA55A,
    PAINT_STEP = 31,
    TAIL = 8, /* elements behind what is lent to be read */
    PROVED_TAIL = 0x00,
    PEER_TAIL = 0xFF,
    SHOWN_ELEMENTS = 64,
    SHOWN_ON_A_LINE = 16
};

const size_t element_bytes[ACTS] = { [UNPACKING] = sizeof(uint16_t), [PACKING] = sizeof(uint8_t) };

/* All that one side is lent. */
struct side {
    uint8_t bytes[MADE_BYTES_MOST + TAIL];
    uint16_t words[MADE_WORDS_MOST + TAIL];
    uint16_t area[AREA_WORDS];
};

/* What is made wrong on the proved side, to show that it is found. */
enum damage { NOTHING, REPLY, PLACE, VERSION, FIRST, LAST, BEFORE, BEHIND, INPUT, DAMAGES };

static const char *const damage_names[DAMAGES] = { "nothing", "reply",  "place",  "version", "first",
                                                   "last",    "before", "behind", "input" };

static uint32_t seed;
static struct moment now;
static struct side proved;
static struct side peer;
static uint16_t paint[AREA_WORDS];
static enum damage damage;
static struct moment damaged;

/* The paint differs from place to place. */
void begin_seed(uint32_t of)
{
    seed = of;
    for (size_t i = 0; i < AREA_WORDS; i++)
        paint[i] = (uint16_t)(PAINT_FIRST + i * PAINT_STEP);
}

void begin_file(size_t number)
{
    now = (struct moment){ number, 0 };
}

static uint16_t *output_words(struct side *side)
{
    return side->area + GUARD_WORDS;
}

static uint8_t *output_bytes(struct side *side)
{
    return (uint8_t *)output_words(side);
}

static size_t room_bytes(const struct call *call)
{
    return call->room * element_bytes[call->act];
}

const uint8_t *output(void)
{
    return output_bytes(&peer);
}

/* The tails differ, so that a side that reads on is found out. */
void give_bytes(const uint8_t *bytes, size_t count)
{
    memcpy(proved.bytes, bytes, count);
    memcpy(peer.bytes, bytes, count);
    memset(proved.bytes + count, PROVED_TAIL, TAIL);
    memset(peer.bytes + count, PEER_TAIL, TAIL);
}

void give_words(const uint16_t *words, size_t count)
{
    memcpy(proved.words, words, count * sizeof words[0]);
    memcpy(peer.words, words, count * sizeof words[0]);
    memset(proved.words + count, PROVED_TAIL, TAIL * sizeof words[0]);
    memset(peer.words + count, PEER_TAIL, TAIL * sizeof words[0]);
}

static uint64_t ask_proved(const struct call *call)
{
    if (call->act == UNPACKING)
        return peatnickel_unpack(output_words(&proved), call->room, call->form, proved.bytes, call->given);
    return peatnickel_pack(output_bytes(&proved), call->room, call->form, call->version, proved.words, call->given);
}

/* The reply as a number of the face. */
static uint64_t ask_form(const struct call *call, enum file_form form)
{
    const struct byte_list bytes = { peer.bytes, call->given };
    const struct word_list words = { peer.words, call->given };
    struct reply packed;

    if (call->act == UNPACKING)
        return number_of_unpacking(unpack_file(form, bytes, output_words(&peer), call->room));
    packed = pack_file(form, call->version, words, output_bytes(&peer), call->room);
    return number_of(packed.refusal, packed.count);
}

/* To what is no form the peer has no reply, and the face's own refusal stands for it. */
static uint64_t ask_peer(const struct call *call)
{
    if (call->form != PEATNICKEL_RULES && call->form != PEATNICKEL_IMAGES)
        return number_of_refusal(PEATNICKEL_WRONG_USE, 0);
    return ask_form(call, call->form == PEATNICKEL_RULES ? FORM_RULE : FORM_IMAGE);
}

void plant_damage(const char *name, struct moment at)
{
    for (size_t i = 0; i < DAMAGES; i++)
        if (strcmp(damage_names[i], name) == 0)
            damage = i;
    damaged = at;
}

/* The proved side's reply, after the damage where this is its place. */
static uint64_t spoiled(const struct call *call, uint64_t reply)
{
    static const uint64_t added[DAMAGES] = {
        [REPLY] = 1, [PLACE] = PEATNICKEL_REFUSALS, [VERSION] = PEATNICKEL_VERSIONS
    };
    uint8_t *output = output_bytes(&proved);
    uint8_t *end = output + room_bytes(call);
    uint8_t *input = call->act == UNPACKING ? proved.bytes : (uint8_t *)proved.words;
    uint8_t *const places[DAMAGES] = {
        [FIRST] = output, [LAST] = end - 1, [BEFORE] = output - 1, [BEHIND] = end, [INPUT] = input
    };

    if (now.file != damaged.file || now.call != damaged.call)
        return reply;
    if (places[damage] != NULL)
        *places[damage] ^= 1;
    return reply + added[damage];
}

static bool is_all(const void *bytes, int byte, size_t count)
{
    const uint8_t *next = bytes;

    while (count > 0 && *next == byte) {
        next++;
        count--;
    }
    return count == 0;
}

/* What was lent to be read is as it was, its tail too. */
static bool input_is_kept(const struct call *call)
{
    const size_t count = call->given;

    if (call->act == UNPACKING)
        return memcmp(proved.bytes, peer.bytes, count) == 0 && is_all(proved.bytes + count, PROVED_TAIL, TAIL) &&
               is_all(peer.bytes + count, PEER_TAIL, TAIL);
    return memcmp(proved.words, peer.words, count * sizeof peer.words[0]) == 0 &&
           is_all(proved.words + count, PROVED_TAIL, TAIL * sizeof peer.words[0]) &&
           is_all(peer.words + count, PEER_TAIL, TAIL * sizeof peer.words[0]);
}

/* All but what the reply says was written has its paint: everything, after a refusal. */
static bool rest_is_painted(const struct call *call, uint32_t reply)
{
    const size_t written = peatnickel_is_refusal(reply) ? 0 : reply * element_bytes[call->act];
    const size_t room = room_bytes(call);
    const size_t start = GUARD + written;

    return written <= room && memcmp(peer.area, paint, GUARD) == 0 &&
           memcmp((uint8_t *)peer.area + start, (uint8_t *)paint + start, room - written + GUARD) == 0;
}

static const char *difference(const struct call *call, uint64_t proved_reply, uint64_t peer_reply)
{
    if (proved_reply != peer_reply)
        return "the replies differ";
    if (memcmp(proved.area, peer.area, GUARD + room_bytes(call) + GUARD) != 0)
        return "the outputs differ";
    if (!rest_is_painted(call, peatnickel_reply_of(peer_reply)))
        return "more is written than the reply says";
    return input_is_kept(call) ? NULL : "what was lent to be read has changed";
}

static void print_elements(const struct call *call)
{
    const size_t shown = call->given < SHOWN_ELEMENTS ? call->given : SHOWN_ELEMENTS;

    for (size_t i = 0; i < shown; i++) {
        bool ends_line = i % SHOWN_ON_A_LINE == SHOWN_ON_A_LINE - 1 || i + 1 == shown;

        if (call->act == UNPACKING)
            printf("%02X%c", (unsigned)peer.bytes[i], ends_line ? '\n' : ' ');
        else
            printf("%04X%c", (unsigned)peer.words[i], ends_line ? '\n' : ' ');
    }
    if (shown < call->given)
        printf("and %zu more\n", call->given - shown);
}

static void print_reply(const char *side, uint64_t reply)
{
    const uint32_t number = peatnickel_reply_of(reply);
    const unsigned version = peatnickel_version_of(reply);

    if (peatnickel_is_refusal(number))
        printf("%s: no %u %u", side, (unsigned)peatnickel_refusal_of(number), (unsigned)peatnickel_place_of(number));
    else
        printf("%s: %u", side, (unsigned)number);
    if (version > 0)
        printf(", version %u", version);
    putchar('\n');
}

/* What was asked, in a line. */
static void print_call(const struct call *call)
{
    if (call->act == UNPACKING)
        printf("unpack as form %u, %zu words of output, from %zu bytes:\n", (unsigned)call->form, call->room,
               call->given);
    else
        printf("pack as form %u and version %u, %zu bytes of output, from %zu words:\n", (unsigned)call->form,
               (unsigned)call->version, call->room, call->given);
}

void tell_and_stop(const struct call *call, uint64_t proved_reply, uint64_t peer_reply, const char *what)
{
    printf("seed %u, file %zu, call %zu: %s\n", (unsigned)seed, now.file, now.call, what);
    print_call(call);
    print_elements(call);
    print_reply("proved", proved_reply);
    print_reply("peer", peer_reply);
    exit(EXIT_FAILURE);
}

uint64_t make_call(const struct call *call)
{
    now.call++;
    memcpy(proved.area, paint, GUARD + room_bytes(call) + GUARD);
    memcpy(peer.area, paint, GUARD + room_bytes(call) + GUARD);

    const uint64_t proved_reply = spoiled(call, ask_proved(call));
    const uint64_t peer_reply = ask_peer(call);
    const char *what = difference(call, proved_reply, peer_reply);

    if (what != NULL)
        tell_and_stop(call, proved_reply, peer_reply, what);
    return peer_reply;
}
