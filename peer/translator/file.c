#include "file.h"

#include <string.h>

/* "mark [...], version as 16 bits, count as 16 bits, then the words" */
enum {
    MARK_BYTES = 3,
    VERSION_PLACE = 3,
    COUNT_PLACE = 5,
    BYTE_BITS = 8,
    BYTE_MOST = 255
};

struct form_row {
    const char *mark;
    size_t words_most;
};

static const struct form_row form_table[] = {
    [FORM_RULE] = { "LRS", RULE_WORDS_MOST },
    [FORM_IMAGE] = { "LRI", IMAGE_WORDS_MOST },
};

/* "all low byte first" */
static uint16_t get_number(const uint8_t *bytes)
{
    return (uint16_t)(bytes[0] | bytes[1] << BYTE_BITS);
}

static void set_number(uint8_t *bytes, size_t number)
{
    bytes[0] = (uint8_t)(number & BYTE_MOST);
    bytes[1] = (uint8_t)(number >> BYTE_BITS & BYTE_MOST);
}

static struct reply refused(enum refusal_number number)
{
    return (struct reply){ { number, 0 }, 0 };
}

static enum refusal_number test_lengths(enum file_form form, size_t count,
                                        size_t needed, size_t capacity)
{
    if (count == 0)
        return REFUSED_NO_WORDS;
    if (count > form_table[form].words_most)
        return REFUSED_TOO_MANY_WORDS;
    if (needed > capacity)
        return REFUSED_OUTPUT_SHORT;
    return REFUSED_NOTHING;
}

/* "11 [...] before 1 outside unpacking", then "1, 2, 9" */
static enum refusal_number test_packing(enum file_form form, uint16_t version,
                                        size_t count, size_t length,
                                        size_t capacity)
{
    if (!version_is_known(version))
        return REFUSED_VERSION;
    return test_lengths(form, count, length, capacity);
}

struct reply pack_file(enum file_form form, uint16_t version,
                       struct word_list words, uint8_t *output,
                       size_t capacity)
{
    size_t length = FILE_HEADER_BYTES + BYTES_OF_A_WORD * words.count;
    enum refusal_number number =
        test_packing(form, version, words.count, length, capacity);

    if (number != REFUSED_NOTHING)
        return refused(number);
    memcpy(output, form_table[form].mark, MARK_BYTES);
    set_number(output + VERSION_PLACE, version);
    set_number(output + COUNT_PLACE, words.count);
    for (size_t i = 0; i < words.count; i++)
        set_number(output + FILE_HEADER_BYTES + BYTES_OF_A_WORD * i,
                   words.words[i]);
    return (struct reply){ { REFUSED_NOTHING, 0 }, length };
}

static enum refusal_number test_header(enum file_form form,
                                       struct byte_list file)
{
    if (file.count < FILE_HEADER_BYTES ||
        memcmp(file.bytes, form_table[form].mark, MARK_BYTES) != 0)
        return REFUSED_MARK;
    if (!version_is_known(get_number(file.bytes + VERSION_PLACE)))
        return REFUSED_VERSION;
    size_t count = get_number(file.bytes + COUNT_PLACE);
    if (file.count != FILE_HEADER_BYTES + BYTES_OF_A_WORD * count)
        return REFUSED_FILE_LENGTH;
    return REFUSED_NOTHING;
}

/* "Unpacking tests 10, 11, 12, 1, 2, 9 and does not read terms." */
struct unpacking unpack_file(enum file_form form, struct byte_list file,
                             uint16_t *output, size_t capacity)
{
    enum refusal_number number = test_header(form, file);

    if (number != REFUSED_NOTHING)
        return (struct unpacking){ refused(number), 0 };
    size_t count = get_number(file.bytes + COUNT_PLACE);
    number = test_lengths(form, count, count, capacity);
    if (number != REFUSED_NOTHING)
        return (struct unpacking){ refused(number), 0 };
    for (size_t i = 0; i < count; i++)
        output[i] = get_number(file.bytes + FILE_HEADER_BYTES +
                               BYTES_OF_A_WORD * i);
    return (struct unpacking){ { { REFUSED_NOTHING, 0 }, count },
                               get_number(file.bytes + VERSION_PLACE) };
}
