#include "selftest_files.h"

#include <stdlib.h>
#include <string.h>

#include "../generators/cases.h"
#include "../translator/file.h"

enum { COUNT_LOW_BYTE = 5, UNTOUCHED_BYTE = 0xA5 };

static void try_unpacking(struct tally *tally, size_t capacity)
{
    uint16_t words[LENT_WORDS];
    struct word_list rule = accepted_cases[1].rule;

    lend_words(words);
    struct unpacking unpacked =
        unpack_file(FORM_RULE, case_b_file, words, capacity);
    struct word_list found = { words, unpacked.reply.count };
    expect(tally, words_are_equal(found, rule), "case B", "unpacked words");
    expect(tally, unpacked.version == VERSION_1, "case B", "its version");
    expect(tally, untouched_from(words, rule.count), "case B",
           "words past the rule are unchanged");
}

static void try_packing(struct tally *tally)
{
    uint8_t bytes[LENT_BYTES];
    struct word_list rule = accepted_cases[1].rule;

    memset(bytes, UNTOUCHED_BYTE, sizeof bytes);
    struct reply packed =
        pack_file(FORM_RULE, VERSION_1, rule, bytes, sizeof bytes);
    expect(tally,
           packed.count == case_b_file.count &&
               memcmp(bytes, case_b_file.bytes, packed.count) == 0,
           "case B", "packed file");
    expect(tally, bytes[packed.count] == UNTOUCHED_BYTE, "case B",
           "bytes past the file are unchanged");
    try_unpacking(tally, rule.count);
    try_unpacking(tally, LENT_WORDS);
}

struct refused_file {
    const char *claim;
    enum file_form form;
    uint8_t bytes[LENT_BYTES];
    size_t count;
    size_t capacity;
    enum refusal_number number;
};

/* Each stands for one test; where two fail, the earlier one replies. */
static const struct refused_file refused_files[] = {
    { "empty file", FORM_RULE, { 0 }, 0, 8, REFUSED_MARK },
    { "six bytes", FORM_RULE, "LRS\1\0\0", 6, 8, REFUSED_MARK },
    { "mark of the other form", FORM_IMAGE, "LRS\1\0\1\0\0\6", 9, 8,
      REFUSED_MARK },
    { "mark's first byte", FORM_RULE, "MRS\1\0\1\0\0\6", 9, 8, REFUSED_MARK },
    { "mark's second byte", FORM_RULE, "LSS\1\0\1\0\0\6", 9, 8, REFUSED_MARK },
    { "mark in lower case", FORM_RULE, "lrs\1\0\1\0\0\6", 9, 8, REFUSED_MARK },
    { "mark before version", FORM_RULE, "LRI\2\0\1\0\0\6", 9, 8,
      REFUSED_MARK },
    { "mark before version 3", FORM_RULE, "LRI\3\0\1\0\0\6", 9, 8,
      REFUSED_MARK },
    { "version 0", FORM_RULE, "LRS\0\0\1\0\0\6", 9, 8, REFUSED_VERSION },
    { "version 3", FORM_RULE, "LRS\3\0\1\0\0\6", 9, 8, REFUSED_VERSION },
    { "version 3 of an image", FORM_IMAGE, "LRI\3\0\1\0\0\6", 9, 8,
      REFUSED_VERSION },
    { "version 256", FORM_RULE, "LRS\0\1\1\0\0\6", 9, 8, REFUSED_VERSION },
    { "version 258", FORM_RULE, "LRS\2\1\1\0\0\6", 9, 8, REFUSED_VERSION },
    { "version 512", FORM_RULE, "LRS\0\2\1\0\0\6", 9, 8, REFUSED_VERSION },
    { "version 0, no words, no output", FORM_RULE, "LRS\0\0\0\0", 7, 0,
      REFUSED_VERSION },
    { "version 2, wrong length", FORM_RULE, "LRS\2\0\1\0\0", 8, 8,
      REFUSED_FILE_LENGTH },
    { "version 2, no words, no output", FORM_RULE, "LRS\2\0\0\0", 7, 0,
      REFUSED_NO_WORDS },
    { "version 2, output one word short", FORM_RULE,
      "LRS\2\0\2\0\0\6\0\0", 11, 1, REFUSED_OUTPUT_SHORT },
    { "version 257, wrong length", FORM_RULE, "LRS\1\1\1\0\0", 8, 8,
      REFUSED_VERSION },
    { "one byte short", FORM_RULE, "LRS\1\0\1\0\0", 8, 8,
      REFUSED_FILE_LENGTH },
    { "one byte over", FORM_RULE, "LRS\1\0\1\0\0\6\0", 10, 8,
      REFUSED_FILE_LENGTH },
    { "no words but a byte", FORM_RULE, "LRS\1\0\0\0\0", 8, 8,
      REFUSED_FILE_LENGTH },
    { "count past the limit, wrong length", FORM_RULE, "LRS\1\0\1\20\0\6", 9, 8,
      REFUSED_FILE_LENGTH },
    { "count that is right but for its highest bit", FORM_RULE,
      "LRS\1\0\1\200\0\6", 9, 8, REFUSED_FILE_LENGTH },
    { "no words", FORM_RULE, "LRS\1\0\0\0", 7, 0, REFUSED_NO_WORDS },
    { "output short", FORM_RULE, "LRS\1\0\1\0\0\6", 9, 0,
      REFUSED_OUTPUT_SHORT },
    { "output one word short", FORM_RULE, "LRS\1\0\2\0\0\6\0\0", 11, 1,
      REFUSED_OUTPUT_SHORT },
};

static void try_refused_files(struct tally *tally)
{
    for (size_t i = 0; i < sizeof refused_files / sizeof refused_files[0];
         i++) {
        const struct refused_file *it = &refused_files[i];
        struct byte_list file = { it->bytes, it->count };
        uint16_t words[LENT_WORDS];

        lend_words(words);
        struct unpacking unpacked =
            unpack_file(it->form, file, words, it->capacity);
        expect(tally,
               is_placeless(unpacked.reply.refusal, it->number) &&
                   unpacked.version == 0 && untouched_from(words, 0),
               "files", it->claim);
    }
}

/* The longest file of a form comes back whole; one word more is refused. */
static void try_longest(struct tally *tally, enum file_form form,
                        uint16_t version, size_t most)
{
    size_t room = FILE_HEADER_BYTES + BYTES_OF_A_WORD * (most + 1);
    uint8_t *bytes = calloc(room, sizeof bytes[0]);
    uint16_t *words = calloc(most + 1, sizeof words[0]);
    uint16_t *back = calloc(most + 1, sizeof back[0]);
    struct word_list longest = { words, most };
    struct word_list longer = { words, most + 1 };

    for (size_t i = 0; i < most; i++)
        words[i] = (uint16_t)(i * i);
    expect(tally,
           is_placeless(pack_file(form, version, longer, bytes, room).refusal,
                        REFUSED_TOO_MANY_WORDS),
           "files", "packing one word too many");
    struct reply packed = pack_file(form, version, longest, bytes, room);
    struct byte_list file = { bytes, packed.count };
    struct unpacking unpacked = unpack_file(form, file, back, most);
    struct word_list found = { back, unpacked.reply.count };
    expect(tally,
           words_are_equal(found, longest) && unpacked.version == version,
           "files", "longest file");
    bytes[COUNT_LOW_BYTE]++; /* the count's low byte is 0 for both limits */
    file.count += BYTES_OF_A_WORD;
    expect(tally,
           is_placeless(unpack_file(form, file, back, most + 1).reply.refusal,
                        REFUSED_TOO_MANY_WORDS) &&
               is_placeless(unpack_file(form, file, back, most).reply.refusal,
                            REFUSED_TOO_MANY_WORDS),
           "files", "unpacking one word too many, whatever the room");
    free(bytes);
    free(words);
    free(back);
}

static void try_packing_refusals(struct tally *tally)
{
    uint8_t bytes[LENT_BYTES];
    struct word_list nothing = { NULL, 0 };
    struct word_list rule = accepted_cases[1].rule;

    memset(bytes, UNTOUCHED_BYTE, sizeof bytes);
    expect(tally,
           is_placeless(
               pack_file(FORM_RULE, VERSION_1, nothing, bytes, 0).refusal,
               REFUSED_NO_WORDS),
           "files", "packing no words");
    expect(tally,
           is_placeless(
               pack_file(FORM_RULE, VERSION_1, rule, bytes,
                         case_b_file.count - 1)
                   .refusal,
               REFUSED_OUTPUT_SHORT),
           "files", "packing into too few bytes");
    expect(tally, bytes[0] == UNTOUCHED_BYTE, "files",
           "refused packing leaves the bytes unchanged");
}

/* In 16 bits their count is 1. */
static void try_most_words(struct tally *tally)
{
    static const uint16_t words[UINT16_MAX + 2];
    const struct word_list many = { words, UINT16_MAX + 2 };
    uint8_t bytes[LENT_BYTES];

    expect(tally,
           is_placeless(
               pack_file(FORM_IMAGE, VERSION_1, many, bytes, sizeof bytes)
                   .refusal,
               REFUSED_TOO_MANY_WORDS),
           "files", "packing more words than a count can say");
}

/* "11 [...] tested [...] before 1 outside unpacking", and so before 2 and 9 */
static void try_packing_versions(struct tally *tally)
{
    static const uint16_t unknown[] = { 0, 3, 255, 256, 257, 258, UINT16_MAX };
    static const uint16_t many[IMAGE_WORDS_MOST + 1];
    const struct word_list lists[] = { { NULL, 0 },
                                       accepted_cases[1].rule,
                                       { many, IMAGE_WORDS_MOST + 1 } };
    uint8_t bytes[LENT_BYTES];
    bool refused = true;

    memset(bytes, UNTOUCHED_BYTE, sizeof bytes);
    for (size_t i = 0; i < sizeof unknown / sizeof unknown[0]; i++)
        for (size_t j = 0; j < sizeof lists / sizeof lists[0]; j++)
            for (size_t room = 0; room <= LENT_BYTES; room += LENT_BYTES)
                refused =
                    refused &&
                    is_placeless(pack_file(FORM_IMAGE, unknown[i], lists[j],
                                           bytes, room)
                                     .refusal,
                                 REFUSED_VERSION) &&
                    bytes[0] == UNTOUCHED_BYTE;
    expect(tally, refused, "files", "packing unknown versions, whatever else");
}

/* Kinds 10 and 11 in both versions: "does not read terms". */
static void try_kinds_unread(struct tally *tally, uint16_t version,
                             struct byte_list expected)
{
    const struct word_list words = WORD_LIST(0x0A00, 0x0B00, 0xFFFF);
    uint8_t bytes[LENT_BYTES];
    uint16_t back[LENT_WORDS];

    struct reply packed =
        pack_file(FORM_RULE, version, words, bytes, sizeof bytes);
    expect(tally,
           packed.count == expected.count &&
               memcmp(bytes, expected.bytes, packed.count) == 0,
           "files", "packed with the version told, terms unread");
    struct unpacking unpacked =
        unpack_file(FORM_RULE, expected, back, LENT_WORDS);
    struct word_list found = { back, unpacked.reply.count };
    expect(tally,
           words_are_equal(found, words) && unpacked.version == version,
           "files", "unpacked with the version read, terms unread");
}

static void try_versions(struct tally *tally)
{
    static const uint8_t first[] = "LRS\1\0\3\0\0\12\0\13\377\377";
    static const uint8_t second[] = "LRS\2\0\3\0\0\12\0\13\377\377";
    const size_t count = sizeof first - 1; /* without the string's end */

    try_kinds_unread(tally, VERSION_1, (struct byte_list){ first, count });
    try_kinds_unread(tally, VERSION_2, (struct byte_list){ second, count });
    try_packing_versions(tally);
}

void try_files(struct tally *tally)
{
    try_packing(tally);
    try_packing_refusals(tally);
    try_refused_files(tally);
    try_versions(tally);
    try_longest(tally, FORM_RULE, VERSION_1, RULE_WORDS_MOST);
    try_longest(tally, FORM_RULE, VERSION_2, RULE_WORDS_MOST);
    try_longest(tally, FORM_IMAGE, VERSION_1, IMAGE_WORDS_MOST);
    try_longest(tally, FORM_IMAGE, VERSION_2, IMAGE_WORDS_MOST);
    try_most_words(tally);
}
