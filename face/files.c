/*
 * Puts random files, well formed and damaged, of both forms and versions, through packing and unpacking on both sides:
 * the proved archive and the second translator, peer/. The replies have to be the same, the version reported too, and
 * so has every byte of a painted output and of the guards around it. What was unpacked has to pack to its file again,
 * and what was packed to unpack to its words and version. It stops at the first difference.
 *
 *   files fuzz SEED COUNT                     the seed's first COUNT files
 *   files fuzz SEED COUNT DAMAGE FILE CALL    the same, with that damage done to the proved side's call CALL on file
 *                                             FILE
 *   files write SEED FILE                     the bytes of one file
 *
 * Files are counted from 0, the calls on each from 1. See face/fuzz-files.
 */
#include <stdbool.h>
#include <stdint.h>
#include <stdio.h>
#include <stdlib.h>
#include <string.h>

#include "../peer/generators/fuzz_files.h"
#include "../peer/generators/number_cases.h"
#include "both.h"
#include "peatnickel.h"

enum {
    COUNT_PLACE = 5,
    LAST_REFUSAL = PEATNICKEL_WRONG_LENGTH,
    WRONG_ODDS = 8 /* one file in so many is told to be of no form, and its words to be of no version */
};

/* The replies to one act: all of them, those that are no refusals, and those of each refusal. */
struct figures {
    size_t calls;
    size_t done;
    size_t refused[LAST_REFUSAL + 1];
};

static struct made_file file;
static struct figures figures[ACTS];
static size_t accepted;
static size_t accepted_of_second; /* of these, those of version 2 */

static void note_reply(struct figures *noted, uint32_t reply)
{
    noted->calls++;
    if (peatnickel_is_refusal(reply))
        noted->refused[peatnickel_refusal_of(reply)]++;
    else
        noted->done++;
}

/* With just room, with one element too few, with none, and with plenty; the reply is the last. */
static uint64_t try_rooms(struct call call, size_t needed)
{
    const size_t rooms[] = { needed, needed > 0 ? needed - 1 : 1, 0, needed + PLENTY };
    uint64_t reply = 0;

    for (size_t i = 0; i < sizeof rooms / sizeof rooms[0]; i++) {
        call.room = rooms[i];
        reply = make_call(&call);
        note_reply(&figures[call.act], peatnickel_reply_of(reply));
    }
    return reply;
}

/* What is given was made from elements that have to come back, with this reply. */
static void try_back(struct call call, const void *before, uint64_t expected)
{
    const size_t count = peatnickel_reply_of(expected);
    const uint64_t reply = try_rooms(call, count);

    call.room = count + PLENTY;
    if (reply != expected || memcmp(output(), before, count * element_bytes[call.act]) != 0)
        tell_and_stop(&call, reply, reply, "what it was made from does not come back");
}

/* Calls that are given so many elements; how much room is lent is for others to say. */
static struct call unpacking_of(uint32_t form, size_t bytes)
{
    return (struct call){ .act = UNPACKING, .form = form, .given = bytes };
}

static struct call packing_of(uint32_t form, uint16_t version, size_t words)
{
    return (struct call){ .act = PACKING, .form = form, .version = version, .given = words };
}

/* The words that the file says it has. */
static size_t count_told(void)
{
    const unsigned byte_values = 256;

    return file.count < FILE_HEADER_BYTES ? 0 : file.bytes[COUNT_PLACE] + byte_values * file.bytes[COUNT_PLACE + 1];
}

/* With the version that unpacking reports, the words pack to the file. */
static void unpack_and_back(uint32_t form)
{
    give_bytes(file.bytes, file.count);
    const uint64_t reply = try_rooms(unpacking_of(form, file.count), count_told());
    const uint32_t count = peatnickel_reply_of(reply);
    const uint16_t version = peatnickel_version_of(reply);

    if (peatnickel_is_refusal(count))
        return;
    accepted++;
    accepted_of_second += version == PEATNICKEL_LANGUAGE_2;
    give_words((const uint16_t *)output(), count);
    try_back(packing_of(form, version, count), file.bytes, file.count);
}

static void pack_and_back(uint32_t form)
{
    const struct word_list words = sink_words(&file.sink);
    const size_t bytes = FILE_HEADER_BYTES + BYTES_OF_A_WORD * words.count;

    give_words(words.words, words.count);
    const uint32_t count = peatnickel_reply_of(try_rooms(packing_of(form, file.version, words.count), bytes));

    if (peatnickel_is_refusal(count))
        return;
    give_bytes(output(), count);
    try_back(unpacking_of(form, count), words.words, PEATNICKEL_VERSIONS * file.version + words.count);
}

/* Numbers next to the forms' and such as have their low bits. */
static void try_no_form(size_t choice)
{
    static const uint32_t numbers[] = { 2, 3, 255, 256, 257, 65536, 65537, UINT32_MAX };
    const uint32_t form = numbers[choice % (sizeof numbers / sizeof numbers[0])];

    give_bytes(file.bytes, file.count);
    try_rooms(unpacking_of(form, file.count), count_told());
    give_words(file.words, file.sink.count);
    try_rooms(packing_of(form, file.version, file.sink.count), file.count);
}

/* The same of versions: files that carry one of these were made as such. */
static void try_no_version(size_t choice)
{
    const uint16_t version = unknown_versions[choice % UNKNOWN_VERSIONS];

    give_words(file.words, file.sink.count);
    try_rooms(packing_of(PEATNICKEL_RULES, version, file.sink.count), file.count);
    try_rooms(packing_of(PEATNICKEL_IMAGES, version, file.sink.count), file.count);
}

static void try_file(size_t number)
{
    begin_file(number);
    unpack_and_back(PEATNICKEL_RULES);
    unpack_and_back(PEATNICKEL_IMAGES);
    pack_and_back(PEATNICKEL_RULES);
    pack_and_back(PEATNICKEL_IMAGES);
    if (number % WRONG_ODDS == 0) {
        try_no_form(number / WRONG_ODDS);
        try_no_version(number / WRONG_ODDS);
    }
}

static void print_figures(const char *name, const struct figures *shown)
{
    const char *between = "";

    printf("%zu %s, %zu done, refused (", shown->calls, name, shown->done);
    for (size_t number = 0; number <= LAST_REFUSAL; number++)
        if (shown->refused[number] > 0) {
            printf("%sno %zu: %zu", between, number, shown->refused[number]);
            between = ", ";
        }
    printf("); ");
}

static void fuzz(uint32_t seed, size_t count)
{
    begin_seed(seed);
    for (size_t number = 0; number < count; number++) {
        make_file(&file, seed, number);
        try_file(number);
    }
    printf("seed %u: %zu files, %zu accepted, %zu of these of version 2; ", (unsigned)seed, count, accepted,
           accepted_of_second);
    print_figures("unpackings", &figures[UNPACKING]);
    print_figures("packings", &figures[PACKING]);
    puts("no difference");
}

static int write_file(uint32_t seed, size_t number)
{
    make_file(&file, seed, number);
    return fwrite(file.bytes, 1, file.count, stdout) == file.count && fflush(stdout) == 0 ? EXIT_SUCCESS : EXIT_FAILURE;
}

static size_t decimal(const char *text)
{
    const int base = 10;

    return strtoul(text, NULL, base);
}

/* The program's name, what it is to do, and two numbers; for a damage, its name and two more. */
int main(int count, char **arguments)
{
    enum { PROGRAM, MODE, SEED, NUMBER, PLAIN, DAMAGE = PLAIN, FILE_NUMBER, CALL_NUMBER, WITH_DAMAGE };
    const bool writes = count == PLAIN && strcmp(arguments[MODE], "write") == 0;
    const bool fuzzes = (count == PLAIN || count == WITH_DAMAGE) && strcmp(arguments[MODE], "fuzz") == 0;

    if (!writes && !fuzzes) {
        fputs("see the head of face/files.c\n", stderr);
        return EXIT_FAILURE;
    }
    const uint32_t seed = (uint32_t)decimal(arguments[SEED]);
    const size_t number = decimal(arguments[NUMBER]);

    if (writes)
        return write_file(seed, number);
    if (count == WITH_DAMAGE) {
        const struct moment at = { decimal(arguments[FILE_NUMBER]), decimal(arguments[CALL_NUMBER]) };

        plant_damage(arguments[DAMAGE], at);
    }
    fuzz(seed, number);
    return EXIT_SUCCESS;
}
