#include "fuzz_files.h"

#include <string.h>

#include "fuzz.h"
#include "gen_record.h"
#include "maker.h"

/*
 * The layout and the marks, written down apart from the translator's packing:
 * a fault there is not to be repeated here.
 */
enum {
    MARK_BYTES = 3,
    VERSION_PLACE = 3,
    COUNT_PLACE = 5,
    BYTE_BITS = 8,
    BYTE_VALUES = 256
};

static const struct made_form {
    uint8_t mark[MARK_BYTES];
    size_t words_most;
} made_forms[] = {
    [FORM_RULE] = { { 'L', 'R', 'S' }, RULE_WORDS_MOST },
    [FORM_IMAGE] = { { 'L', 'R', 'I' }, IMAGE_WORDS_MOST },
};

enum {
    FEW_WORDS_MOST = 20,
    SOME_WORDS_MOST = 600,
    NEAR_THE_MOST = 3,
    NEAR_COUNT_MOST = 2,
    NOISE_BYTES_MOST = 40,
    CUT_BYTES_MOST = 20,
    CUT_OFF_BYTES_MOST = 3
};

/* One in so many is the rarer choice. */
enum {
    FILLER_ODDS = 2,
    WHOLE_ODDS = 2,
    HARM_AGAIN_ODDS = 3,
    FLIP_ODDS = 2,
    FIRST_VERSION_ODDS = 2
};

static enum file_form other_form(enum file_form form)
{
    return form == FORM_RULE ? FORM_IMAGE : FORM_RULE;
}

static void put_any_words(struct maker *maker, size_t count)
{
    for (; count > 0; count--)
        put_word(maker->sink, (uint16_t)next_random(maker));
}

static void put_no_words(struct maker *maker, struct made_file *file)
{
    (void)maker;
    (void)file;
}

static void put_few_words(struct maker *maker, struct made_file *file)
{
    (void)file;
    put_any_words(maker, from_to(maker, 1, FEW_WORDS_MOST));
}

static void put_some_words(struct maker *maker, struct made_file *file)
{
    (void)file;
    put_any_words(maker, from_to(maker, 1, SOME_WORDS_MOST));
}

static void put_any_count(struct maker *maker, struct made_file *file)
{
    (void)file;
    put_any_words(maker, from_to(maker, 1, UINT16_MAX));
}

/* About as many as the count's 16 bits can say. */
static void put_near_count(struct maker *maker, struct made_file *file)
{
    (void)file;
    put_any_words(maker, from_to(maker, UINT16_MAX - NEAR_COUNT_MOST,
                                 UINT16_MAX + NEAR_COUNT_MOST));
}

static size_t near_most(struct maker *maker, enum file_form form)
{
    size_t most = made_forms[form].words_most;

    return from_to(maker, most - NEAR_THE_MOST, most + NEAR_THE_MOST);
}

/* Half of the rules are accepted up to the limit: the bench looks at terms. */
static void put_near_most(struct maker *maker, struct made_file *file)
{
    size_t count = near_most(maker, file->form);

    if (file->form == FORM_RULE && one_in(maker, FILLER_ODDS))
        put_filler(maker->sink, count);
    else
        put_any_words(maker, count);
}

static void put_near_other_most(struct maker *maker, struct made_file *file)
{
    put_any_words(maker, near_most(maker, other_form(file->form)));
}

/*
 * A random rule, or its image; if it has none, a few words. The file has the
 * rule's version where that is known.
 */
static void put_terms(struct maker *maker, struct made_file *file)
{
    struct random_rule rule;
    struct word_sink *sink = maker->sink;

    put_rule(&rule, next_random(maker), 0);
    struct word_list words = sink_words(&rule.record.sink);
    if (version_is_known(rule.version))
        file->version = rule.version;
    if (file->form == FORM_RULE)
        put_words(sink, words);
    else
        sink->count = write_image(file->version, words, sink->words,
                                  IMAGE_WORDS_MOST).count;
    if (sink->count == 0)
        put_few_words(maker, file);
}

/* Of a hundred files, before any are damaged. */
static const struct content {
    size_t share;
    void (*put)(struct maker *, struct made_file *);
} contents[] = {
    { 31, put_few_words },       { 20, put_some_words }, { 25, put_terms },
    { 10, put_near_most },       { 3, put_any_count },   { 3, put_no_words },
    { 5, put_near_other_most },  { 3, put_near_count },
};

enum { SHARES = 100 };

static void put_content(struct maker *maker, struct made_file *file)
{
    size_t drawn = below(maker, SHARES);
    const struct content *content = contents;

    while (drawn >= content->share) {
        drawn -= content->share;
        content++;
    }
    content->put(maker, file);
}

/* "all low byte first"; what is left of a file may be too short for it. */
static void set_number(struct made_file *file, size_t place, size_t number)
{
    if (place + 1 < file->count) {
        file->bytes[place] = (uint8_t)number;
        file->bytes[place + 1] = (uint8_t)(number >> BYTE_BITS);
    }
}

static void set_mark(struct made_file *file, enum file_form form)
{
    if (MARK_BYTES <= file->count)
        memcpy(file->bytes, made_forms[form].mark, MARK_BYTES);
}

static void pack_made(struct made_file *file)
{
    size_t words = file->sink.count;

    file->count = FILE_HEADER_BYTES + BYTES_OF_A_WORD * words;
    set_mark(file, file->form);
    set_number(file, VERSION_PLACE, file->version);
    set_number(file, COUNT_PLACE, words);
    for (size_t i = 0; i < words; i++)
        set_number(file, FILE_HEADER_BYTES + BYTES_OF_A_WORD * i,
                   file->words[i]);
}

static void flip_bit_before(struct maker *maker, struct made_file *file,
                            size_t end)
{
    if (end > file->count)
        end = file->count;
    if (end > 0) {
        size_t place = below(maker, end);

        file->bytes[place] ^= (uint8_t)(1u << below(maker, BYTE_BITS));
    }
}

static void harm_mark(struct maker *maker, struct made_file *file)
{
    /* Named one by one: what is assigned and where has no order in C. */
    size_t place = below(maker, MARK_BYTES);
    uint8_t byte = (uint8_t)below(maker, BYTE_VALUES);

    if (one_in(maker, FLIP_ODDS))
        flip_bit_before(maker, file, MARK_BYTES);
    else if (place < file->count)
        file->bytes[place] = byte;
}

static void exchange_mark(struct maker *maker, struct made_file *file)
{
    (void)maker;
    set_mark(file, other_form(file->form));
}

static void harm_version(struct maker *maker, struct made_file *file)
{
    static const uint16_t versions[] = { 0,   3,   256,       257,
                                         258, 512, UINT16_MAX };
    const size_t count = sizeof versions / sizeof versions[0];
    size_t choice = below(maker, count + 1);

    set_number(file, VERSION_PLACE,
               choice < count ? versions[choice] : next_random(maker));
}

/* No fault in itself: the file is then one of the other version. */
static void exchange_version(struct maker *maker, struct made_file *file)
{
    (void)maker;
    set_number(file, VERSION_PLACE,
               file->version == VERSION_1 ? VERSION_2 : VERSION_1);
}

/* Twice a count with the other high bit is the same in 16 bits. */
static void harm_count(struct maker *maker, struct made_file *file)
{
    const size_t most = made_forms[file->form].words_most;
    const size_t high_bit = 1u << (2 * BYTE_BITS - 1);
    const size_t counts[] = { 0, most, most + 1, UINT16_MAX,
                              file->sink.count ^ high_bit,
                              next_random(maker) };

    set_number(file, COUNT_PLACE,
               counts[below(maker, sizeof counts / sizeof counts[0])]);
}

static void harm_count_by_one(struct maker *maker, struct made_file *file)
{
    const size_t count = file->sink.count;

    set_number(file, COUNT_PLACE, one_in(maker, 2) ? count + 1 : count - 1);
}

static void exchange_count_bytes(struct maker *maker, struct made_file *file)
{
    const size_t count = file->sink.count;

    (void)maker;
    set_number(file, COUNT_PLACE,
               count % BYTE_VALUES * BYTE_VALUES + count / BYTE_VALUES);
}

static void cut_to(struct made_file *file, size_t count)
{
    if (count < file->count)
        file->count = count;
}

static void cut_to_few(struct maker *maker, struct made_file *file)
{
    cut_to(file, below(maker, CUT_BYTES_MOST + 1));
}

static void cut_off_few(struct maker *maker, struct made_file *file)
{
    size_t cut_off = from_to(maker, 1, CUT_OFF_BYTES_MOST);

    cut_to(file, file->count > cut_off ? file->count - cut_off : 0);
}

static void append_bytes(struct maker *maker, struct made_file *file)
{
    for (size_t i = from_to(maker, 1, APPENDED_BYTES_MOST); i > 0; i--)
        file->bytes[file->count++] = (uint8_t)below(maker, BYTE_VALUES);
}

static void flip_header_bit(struct maker *maker, struct made_file *file)
{
    flip_bit_before(maker, file, FILE_HEADER_BYTES);
}

static void flip_any_bit(struct maker *maker, struct made_file *file)
{
    flip_bit_before(maker, file, file->count);
}

/* Random bytes, half of them behind the mark. */
static void make_noise(struct maker *maker, struct made_file *file)
{
    file->count = below(maker, NOISE_BYTES_MOST + 1);
    for (size_t i = 0; i < file->count; i++)
        file->bytes[i] = (uint8_t)below(maker, BYTE_VALUES);
    if (one_in(maker, 2))
        set_mark(file, file->form);
}

static void harm_file(struct maker *maker, struct made_file *file)
{
    static void (*const harms[])(struct maker *, struct made_file *) = {
        harm_mark,        exchange_mark,     harm_version,
        exchange_version, harm_count,        harm_count_by_one,
        cut_to_few,       cut_off_few,       exchange_count_bytes,
        append_bytes,     make_noise,        flip_header_bit,
        flip_any_bit
    };

    harms[below(maker, sizeof harms / sizeof harms[0])](maker, file);
}

/* The seed's complement, so that a file's draws are no rule's. */
void make_file(struct made_file *file, uint32_t seed, size_t number)
{
    struct maker maker = maker_into(&file->sink, state_of(~seed, number));
    size_t harms = one_in(&maker, WHOLE_ODDS) ? 0 : 1;

    while (harms > 0 && harms < FILE_HARMS_MOST &&
           one_in(&maker, HARM_AGAIN_ODDS))
        harms++;
    file->form = number % 2 == 0 ? FORM_RULE : FORM_IMAGE;
    file->version = one_in(&maker, FIRST_VERSION_ODDS) ? VERSION_1 : VERSION_2;
    file->sink = sink_into(file->words, MADE_WORDS_MOST);
    put_content(&maker, file);
    pack_made(file);
    for (; harms > 0; harms--)
        harm_file(&maker, file);
}
