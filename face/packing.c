/*
 * Packs and unpacks as a program in C does: files of both forms and versions there and back, those that the paper and
 * this program write out, every refusal of a file and of its words in the order of the tests, outputs one element
 * short, and the limits. Each call is made on a painted output.
 */
#include <stdbool.h>
#include <stdint.h>
#include <string.h>

#include "../peer/generators/cases.h"
#include "../peer/generators/number_cases.h"
#include "../peer/translator/image.h"
#include "expect.h"
#include "number.h"
#include "painted.h"
#include "peatnickel.h"

enum { HEADER = PEATNICKEL_FILE_BYTES(0), FORMS = 2 };

_Static_assert(PEATNICKEL_RULE_FILE_BYTES == 8199, "the paper's longest file of rules");
_Static_assert(PEATNICKEL_IMAGE_FILE_BYTES == 57351, "the longest file of images");

static const struct {
    const char *longest;
    uint32_t form;
    char third; /* of the mark */
    size_t most;
} forms[FORMS] = {
    { "longest file of rules", PEATNICKEL_RULES, 'S', PEATNICKEL_RULE_WORDS },
    { "longest file of images", PEATNICKEL_IMAGES, 'I', PEATNICKEL_IMAGE_WORDS },
};

/* Files of version 2, written out: a number, and an addition's image, in part. */
static const uint8_t number_file[] = { 0x4C, 0x52, 0x53, 0x02, 0x00, 0x03, 0x00, 0x00, 0x0A, 0x34, 0x12, 0x78, 0x56 };
static const struct word_list number_words = WORD_LIST(0x0A00, 0x1234, 0x5678);
static const uint8_t ending_file[] = { 0x4C, 0x52, 0x49, 0x02, 0x00, 0x02, 0x00, 0x00, 0x0B, 0x01, 0x09 };
static const struct word_list ending_words = WORD_LIST(0x0B00, 0x0901);

/* Unpacking's reply: so many words, from a file of that version. */
static uint64_t unpacked(uint16_t version, size_t count)
{
    return PEATNICKEL_VERSIONS * version + count;
}

/* A file is unpacked with just room and with one word too few, and its version is told. */
static void try_unpacking(const char *name, uint32_t form, uint16_t version, struct word_list words,
                          const uint8_t *file)
{
    const size_t size = PEATNICKEL_FILE_BYTES(words.count);

    paint();
    expect_reply(peatnickel_unpack(words_out, words.count - 1, form, file, size), placeless(PEATNICKEL_NO_ROOM),
                 "unpack, one word short", name);
    expect(painted(), "output one word short is untouched", name);
    const uint64_t reply = peatnickel_unpack(words_out, words.count, form, file, size);

    expect_reply(reply, unpacked(version, words.count), "unpack", name);
    expect(peatnickel_reply_of(reply) == words.count, "the count", name);
    expect(peatnickel_version_of(reply) == version, "the version", name);
    expect(front_is(words) && painted_but(words.count, 0), "words unpacked, and no more", name);
}

/* Packs the words and unpacks the file, with just room and one element too few; the bytes are given where known. */
static void try_file(const char *name, uint32_t form, uint16_t version, struct word_list words, const uint8_t *bytes)
{
    static uint8_t file[FILE_ROOM];
    const size_t size = PEATNICKEL_FILE_BYTES(words.count);

    paint();
    expect_reply(peatnickel_pack(bytes_out, size - 1, form, version, words.words, words.count),
                 placeless(PEATNICKEL_NO_ROOM), "pack, one byte short", name);
    expect(painted(), "output one byte short is untouched", name);
    expect_reply(peatnickel_pack(bytes_out, size, form, version, words.words, words.count), size, "pack, just room",
                 name);
    expect(painted_but(0, size), "bytes around the file, with just room", name);
    paint();
    expect_reply(peatnickel_pack(bytes_out, FILE_ROOM, form, version, words.words, words.count), size, "pack", name);
    expect(bytes == NULL || memcmp(bytes_out, bytes, size) == 0, "bytes packed", name);
    expect(painted_but(0, size), "bytes around the file", name);
    memcpy(file, bytes_out, size);
    try_unpacking(name, form, version, words, file);
}

/* A file that is refused, whatever the room; a refusal has no version. */
static void try_bad_file(const char *name, uint32_t form, const uint8_t *bytes, size_t count, uint32_t number)
{
    paint();
    const uint64_t reply = peatnickel_unpack(words_out, ROOM, form, bytes, count);

    expect_reply(reply, placeless(number), "unpack", name);
    expect(peatnickel_version_of(reply) == 0, "no version", name);
    expect_reply(peatnickel_unpack(NULL, 0, form, bytes, count), placeless(number), "unpack to no output", name);
    expect(painted(), "output of a refusal is untouched", name);
}

static void try_bad_pack(const char *name, uint32_t form, uint16_t version, struct word_list words, uint32_t number)
{
    paint();
    expect_reply(peatnickel_pack(bytes_out, FILE_ROOM, form, version, words.words, words.count), placeless(number),
                 "pack", name);
    expect_reply(peatnickel_pack(NULL, 0, form, version, words.words, words.count), placeless(number),
                 "pack to no output", name);
    expect(painted(), "output of a refusal is untouched", name);
}

/* Rules and their images as files of both forms and versions: no terms are read. */
static void worked_files(const struct accepted_case *cases, size_t count)
{
    static uint16_t words[PEATNICKEL_IMAGE_WORDS];

    for (uint16_t version = PEATNICKEL_LANGUAGE_1; version <= PEATNICKEL_LANGUAGE_2; version++)
        for (size_t i = 0; i < count; i++) {
            struct reply reply = write_image(PEATNICKEL_LANGUAGE_2, cases[i].rule, words, PEATNICKEL_IMAGE_WORDS);
            struct word_list image = { words, reply.count };

            try_file(cases[i].name, PEATNICKEL_RULES, version, cases[i].rule, NULL);
            try_file(cases[i].name, PEATNICKEL_IMAGES, version, cases[i].rule, NULL);
            try_file(cases[i].name, PEATNICKEL_IMAGES, version, image, NULL);
        }
}

static void written_files(void)
{
    try_file("case B, the paper's file", PEATNICKEL_RULES, PEATNICKEL_LANGUAGE_1, accepted_cases[1].rule,
             case_b_file.bytes);
    try_file("a number's file, written out", PEATNICKEL_RULES, PEATNICKEL_LANGUAGE_2, number_words, number_file);
    try_file("an image's file, written out", PEATNICKEL_IMAGES, PEATNICKEL_LANGUAGE_2, ending_words, ending_file);
}

/* The header of a file that says it holds so many words. */
static void put_header(uint8_t *bytes, char third, unsigned version, size_t count)
{
    const uint8_t header[HEADER] = { 'L', 'R', (uint8_t)third, (uint8_t)version, (uint8_t)(version >> 8),
                                     (uint8_t)count, (uint8_t)(count >> 8) };

    memcpy(bytes, header, HEADER);
}

/* Files at the limit of their form, and one word past it. */
static void longest_files(uint16_t version)
{
    static uint16_t words[PEATNICKEL_IMAGE_WORDS + 1];
    static uint8_t file[PEATNICKEL_FILE_BYTES(PEATNICKEL_IMAGE_WORDS + 1)];

    for (size_t i = 0; i <= PEATNICKEL_IMAGE_WORDS; i++)
        words[i] = (uint16_t)(i * 31 + 5);
    for (size_t i = 0; i < FORMS; i++) {
        const size_t past = forms[i].most + 1;

        try_file(forms[i].longest, forms[i].form, version, (struct word_list){ words, forms[i].most }, NULL);
        try_bad_pack(forms[i].longest, forms[i].form, version, (struct word_list){ words, past },
                     PEATNICKEL_TOO_MANY_WORDS);
        put_header(file, forms[i].third, version, past);
        try_bad_file(forms[i].longest, forms[i].form, file, PEATNICKEL_FILE_BYTES(past), PEATNICKEL_TOO_MANY_WORDS);
    }
}

/* The refusals of files of a version that there is: 10, 12, 1, in this order, and no form. */
static void bad_files(uint16_t version)
{
    uint8_t file[PEATNICKEL_FILE_BYTES(1)] = { 0 };

    put_header(file, 'S', version, 1);
    try_bad_file("no bytes", PEATNICKEL_RULES, NULL, 0, PEATNICKEL_WRONG_MARK);
    try_bad_file("6 bytes", PEATNICKEL_RULES, file, HEADER - 1, PEATNICKEL_WRONG_MARK);
    try_bad_file("rules for images", PEATNICKEL_IMAGES, file, sizeof file, PEATNICKEL_WRONG_MARK);
    try_bad_file("a byte short", PEATNICKEL_RULES, file, sizeof file - 1, PEATNICKEL_WRONG_LENGTH);
    try_bad_file("form 2", 2, file, sizeof file, PEATNICKEL_WRONG_USE);
    try_bad_file("form 4,294,967,295", UINT32_MAX, NULL, 0, PEATNICKEL_WRONG_USE);
    put_header(file, 'I', version, 1);
    try_bad_file("images for rules", PEATNICKEL_RULES, file, sizeof file, PEATNICKEL_WRONG_MARK);
    put_header(file, 'S', version, 0);
    try_bad_file("one word more than counted", PEATNICKEL_RULES, file, sizeof file, PEATNICKEL_WRONG_LENGTH);
    try_bad_file("count 0", PEATNICKEL_RULES, file, HEADER, PEATNICKEL_NO_WORDS);
}

/* The refusals of words: no form, then 1. */
static void bad_packs(uint16_t version)
{
    const struct word_list none = { NULL, 0 };

    try_bad_pack("form 2", 2, version, accepted_cases[0].rule, PEATNICKEL_WRONG_USE);
    try_bad_pack("form 65,536", 65536, version, accepted_cases[0].rule, PEATNICKEL_WRONG_USE);
    try_bad_pack("no words of rules", PEATNICKEL_RULES, version, none, PEATNICKEL_NO_WORDS);
    try_bad_pack("no words of images", PEATNICKEL_IMAGES, version, none, PEATNICKEL_NO_WORDS);
}

/* A file of a version that is neither: 10 comes before, and 12, 1, 2 and 9 come after. */
static void unknown_in_file(uint16_t version, char third, uint32_t form, uint32_t other_form)
{
    static uint8_t file[PEATNICKEL_FILE_BYTES(PEATNICKEL_IMAGE_WORDS + 1)];

    put_header(file, third, version, 1);
    try_bad_file("no version", form, file, PEATNICKEL_FILE_BYTES(1), PEATNICKEL_WRONG_VERSION);
    try_bad_file("no version, a byte short", form, file, PEATNICKEL_FILE_BYTES(1) - 1, PEATNICKEL_WRONG_VERSION);
    try_bad_file("no version, 6 bytes", form, file, HEADER - 1, PEATNICKEL_WRONG_MARK);
    try_bad_file("no version, the other form", other_form, file, PEATNICKEL_FILE_BYTES(1), PEATNICKEL_WRONG_MARK);
    try_bad_file("no version, no form", FORMS, file, PEATNICKEL_FILE_BYTES(1), PEATNICKEL_WRONG_USE);
    put_header(file, third, version, 0);
    try_bad_file("no version, count 0", form, file, HEADER, PEATNICKEL_WRONG_VERSION);
    put_header(file, third, version, PEATNICKEL_IMAGE_WORDS + 1);
    try_bad_file("no version, too many words", form, file, sizeof file, PEATNICKEL_WRONG_VERSION);
}

/* Words told a version that is neither: 0 comes before, and 1, 2 and 9 come after. */
static void unknown_to_pack(uint16_t version, uint32_t form)
{
    static const uint16_t many[PEATNICKEL_IMAGE_WORDS + 1];
    const struct word_list lists[] = { { NULL, 0 }, { many, PEATNICKEL_IMAGE_WORDS + 1 }, number_words };

    for (size_t i = 0; i < sizeof lists / sizeof lists[0]; i++) {
        try_bad_pack("no version", form, version, lists[i], PEATNICKEL_WRONG_VERSION);
        try_bad_pack("no version, no form", FORMS, version, lists[i], PEATNICKEL_WRONG_USE);
    }
}

static void unknown_in_both(void)
{
    for (size_t i = 0; i < UNKNOWN_VERSIONS; i++)
        for (size_t j = 0; j < FORMS; j++) {
            unknown_in_file(unknown_versions[i], forms[j].third, forms[j].form, forms[FORMS - 1 - j].form);
            unknown_to_pack(unknown_versions[i], forms[j].form);
        }
}

/* Every version of 16 bits, told to packing and carried by a file. */
static void every_version(void)
{
    const struct word_list words = number_words;
    uint8_t file[sizeof number_file];

    memcpy(file, number_file, sizeof file);
    for (unsigned version = 0; version <= UINT16_MAX; version++) {
        const bool known = version == PEATNICKEL_LANGUAGE_1 || version == PEATNICKEL_LANGUAGE_2;
        const uint64_t refused = placeless(PEATNICKEL_WRONG_VERSION);
        const uint16_t told = (uint16_t)version;

        put_header(file, 'S', version, words.count);
        expect_reply(peatnickel_pack(bytes_out, FILE_ROOM, PEATNICKEL_RULES, told, words.words, words.count),
                     known ? sizeof file : refused, "pack", "versions");
        expect_reply(peatnickel_unpack(words_out, ROOM, PEATNICKEL_RULES, file, sizeof file),
                     known ? unpacked(told, words.count) : refused, "unpack", "versions");
    }
}

/* Unpacking's reply taken apart. */
static void replies(void)
{
    const uint64_t longest = unpacked(PEATNICKEL_LANGUAGE_2, PEATNICKEL_IMAGE_WORDS);
    const uint64_t refused = placeless(PEATNICKEL_WRONG_LENGTH);

    expect(unpacked(PEATNICKEL_LANGUAGE_1, 5) == UINT64_C(4294967301), "5 words of version 1", "replies");
    expect(unpacked(PEATNICKEL_LANGUAGE_2, 5) == UINT64_C(8589934597), "5 words of version 2", "replies");
    expect(peatnickel_reply_of(longest) == PEATNICKEL_IMAGE_WORDS, "the count", "replies");
    expect(!peatnickel_is_refusal(peatnickel_reply_of(longest)), "a count is no refusal", "replies");
    expect(peatnickel_version_of(longest) == PEATNICKEL_LANGUAGE_2, "the version", "replies");
    expect(peatnickel_reply_of(refused) == refused, "a refusal is the number that it is", "replies");
    expect(peatnickel_refusal_of(peatnickel_reply_of(refused)) == PEATNICKEL_WRONG_LENGTH, "its number", "replies");
    expect(peatnickel_version_of(refused) == 0, "a refusal has no version", "replies");
}

int main(void)
{
    static const uint32_t of_files[] = { PEATNICKEL_WRONG_USE,     PEATNICKEL_NO_WORDS,   PEATNICKEL_TOO_MANY_WORDS,
                                         PEATNICKEL_NO_ROOM,       PEATNICKEL_WRONG_MARK, PEATNICKEL_WRONG_VERSION,
                                         PEATNICKEL_WRONG_LENGTH };

    replies();
    worked_files(accepted_cases, ACCEPTED_CASES);
    worked_files(number_accepted, NUMBER_ACCEPTED);
    written_files();
    for (uint16_t version = PEATNICKEL_LANGUAGE_1; version <= PEATNICKEL_LANGUAGE_2; version++) {
        longest_files(version);
        bad_files(version);
        bad_packs(version);
    }
    unknown_in_both();
    every_version();
    expect_given(of_files, sizeof of_files / sizeof of_files[0]);
    return tally();
}
