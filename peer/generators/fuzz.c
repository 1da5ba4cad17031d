#include "fuzz.h"

#include <string.h>

#include "../translator/file.h"
#include "fuzz_shapes.h"
#include "gen_random.h"
#include "number_cases.h"

/* Of a hundred rules, before any are damaged. */
static const struct shape {
    size_t share;
    void (*put)(struct maker *, struct record *);
} shapes[] = {
    { 36, put_well_formed }, { 16, put_deep },  { 13, put_wide },
    { 9, put_edges },        { 9, put_atoms },  { 5, put_random_words },
    { 2, put_long },         { 10, put_numeric },
};

enum { SHARES = 100 };

/* One in so many may have dead arms: in some of these many, in some few. */
enum { DEAD_RULE_ODDS = 20, DEAD_ARM_ODDS_LEAST = 2, DEAD_ARM_ODDS_MOST = 24 };

/* One in so many has an unknown version, of the others one the first. */
enum { UNKNOWN_VERSION_ODDS = 25, FIRST_VERSION_ODDS = 3 };

/*
 * One in so many is without numbers where they may be, or with numbers where
 * they are refused. In some of those with numbers there are many, in some few.
 */
enum {
    WITHOUT_NUMBERS_ODDS = 6,
    NUMBERS_IN_FIRST_ODDS = 12,
    NUMBER_ODDS_LEAST = 2,
    NUMBER_ODDS_MOST = 9
};

/* One in so many is damaged, half of these by changed words. */
enum { DAMAGED_ODDS = 5, CHANGED_WORDS_MOST = 3, APPENDED_WORDS_MOST = 4 };

enum harm {
    HARM_DROP,
    HARM_DOUBLE,
    HARM_CUT,
    HARM_APPEND,
    HARMS_BESIDES_CHANGES,
    HARMS = 2 * HARMS_BESIDES_CHANGES
};

static void put_shape(struct maker *maker, struct record *record)
{
    size_t drawn = below(maker, SHARES);
    const struct shape *shape = shapes;

    while (drawn >= shape->share) {
        drawn -= shape->share;
        shape++;
    }
    shape->put(maker, record);
}

static void drop_word(struct maker *maker, struct record *record)
{
    size_t place = below(maker, record->sink.count);
    uint16_t *word = &record->words[place];

    record->sink.count--;
    memmove(word, word + 1,
            (record->sink.count - place) * sizeof record->words[0]);
}

static void double_word(struct maker *maker, struct record *record)
{
    size_t place = below(maker, record->sink.count);
    uint16_t *word = &record->words[place];

    memmove(word + 1, word,
            (record->sink.count - place) * sizeof record->words[0]);
    record->sink.count++;
}

/* Often a word that could stand there, taken from the rule itself. */
static void append_words(struct maker *maker, struct record *record)
{
    for (size_t i = from_to(maker, 1, APPENDED_WORDS_MOST); i > 0; i--) {
        uint16_t word = (uint16_t)next_random(maker);
        size_t place = below(maker, record->sink.count);

        put_word(&record->sink,
                 one_in(maker, 2) ? word : record->words[place]);
    }
}

/* Every shape leaves a word at least, and room for all that is added here. */
static void harm_rule(struct maker *maker, struct record *record)
{
    switch (below(maker, HARMS)) {
    case HARM_DROP:
        drop_word(maker, record);
        break;
    case HARM_DOUBLE:
        double_word(maker, record);
        break;
    case HARM_CUT:
        record->sink.count = below(maker, record->sink.count);
        break;
    case HARM_APPEND:
        append_words(maker, record);
        break;
    default:
        for (size_t i = from_to(maker, 1, CHANGED_WORDS_MOST); i > 0; i--)
            damage_word(maker, record);
        break;
    }
}

static size_t dead_odds_of_rule(struct maker *maker)
{
    return one_in(maker, DEAD_RULE_ODDS)
               ? from_to(maker, DEAD_ARM_ODDS_LEAST, DEAD_ARM_ODDS_MOST)
               : 0;
}

/* An unknown one may be any, and now and then is known after all. */
static uint16_t some_version(struct maker *maker)
{
    size_t choice = below(maker, 2 * UNKNOWN_VERSIONS);
    uint16_t any = (uint16_t)next_random(maker);

    if (one_in(maker, UNKNOWN_VERSION_ODDS))
        return choice < UNKNOWN_VERSIONS ? unknown_versions[choice] : any;
    return one_in(maker, FIRST_VERSION_ODDS) ? VERSION_1 : VERSION_2;
}

static size_t number_odds_of_rule(struct maker *maker, uint16_t version)
{
    bool has_numbers = version == VERSION_1
                           ? one_in(maker, NUMBERS_IN_FIRST_ODDS)
                           : !one_in(maker, WITHOUT_NUMBERS_ODDS);

    return has_numbers ? from_to(maker, NUMBER_ODDS_LEAST, NUMBER_ODDS_MOST)
                       : 0;
}

void put_rule(struct random_rule *rule, uint32_t seed, size_t number)
{
    const size_t words_most = RECORD_WORDS_MOST - APPENDED_WORDS_MOST;
    struct record *record = &rule->record;
    struct maker maker = maker_into(&record->sink, state_of(seed, number));
    bool harmed = one_in(&maker, DAMAGED_ODDS);
    size_t dead_odds = dead_odds_of_rule(&maker);

    rule->version = some_version(&maker);
    size_t number_odds = number_odds_of_rule(&maker, rule->version);
    do {
        maker = maker_into(&record->sink, maker.state);
        maker.dead_odds = dead_odds;
        maker.number_odds = number_odds;
        put_shape(&maker, record);
    } while (record->sink.count > words_most);
    if (harmed)
        harm_rule(&maker, record);
}

size_t write_stretch(FILE *out, struct stretch stretch)
{
    struct random_rule rule;
    size_t written = 0;
    size_t bytes = 0;

    for (; written < stretch.count; written++) {
        put_rule(&rule, stretch.seed, stretch.first + written);
        struct word_list words = sink_words(&rule.record.sink);
        bytes += BYTES_OF_A_WORD * (RECORD_HEADER_WORDS + words.count);
        if (bytes > stretch.bytes)
            break;
        write_record(out, rule.version, words);
    }
    return written;
}
