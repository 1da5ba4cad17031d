#include "gen_random.h"

#include "gen_fitting.h"
#include "gen_free.h"

/* Well-formed, well-formed but for one word, and words at random. */
struct row {
    uint32_t seed;
    size_t number_odds;
    size_t well_formed;
    size_t damaged;
    size_t random_words;
};

static const struct row first_version = { .seed = 0x2545F491,
                                          .well_formed = 240,
                                          .damaged = 100,
                                          .random_words = 60 };
static const struct row second_version = { .seed = 0x9E3779B9,
                                           .number_odds = 3,
                                           .well_formed = 140,
                                           .damaged = 60,
                                           .random_words = 40 };

enum {
    RULE_TARGET_MOST = 220,
    RANDOM_RULE_WORDS_MOST = 300,
    RANDOM_WORDS_MOST = 40
};

/* One in so many is the rarer choice. */
enum { FITTING_RULE_ODDS = 2, ANY_WORDS_ODDS = 4 };

enum damage { DAMAGE_WORD, DAMAGE_KIND, DAMAGE_UP, DAMAGE_DOWN, DAMAGES };

/* Half the well-formed rules are free, half fitting. */
void put_well_formed(struct maker *maker, struct record *record)
{
    bool fitting = one_in(maker, FITTING_RULE_ODDS);

    do {
        struct spot spot = { from_to(maker, 1, RULE_TARGET_MOST), 1 };

        start_record(record);
        maker->bound = 0;
        if (fitting)
            put_fitting(maker, some_type(maker), spot);
        else
            put_free(maker, spot);
    } while (record->sink.count > RANDOM_RULE_WORDS_MOST);
}

/* Without numbers none of the kinds that came with them is put. */
static enum kind last_kind(const struct maker *maker)
{
    return maker->number_odds > 0 ? KIND_OPERATION : KIND_CONTINUATION;
}

void damage_word(struct maker *maker, struct record *record)
{
    uint16_t *word = &record->words[below(maker, record->sink.count)];
    const size_t kinds = last_kind(maker) + 2;

    switch (below(maker, DAMAGES)) {
    case DAMAGE_WORD:
        *word = (uint16_t)next_random(maker);
        break;
    case DAMAGE_KIND:
        *word = head_word(below(maker, kinds), word_low(*word));
        break;
    case DAMAGE_UP:
        *word = (uint16_t)(*word + 1);
        break;
    default:
        *word = (uint16_t)(*word - 1);
        break;
    }
}

/* Any words at all, or words that look like heads. */
void put_random_words(struct maker *maker, struct record *record)
{
    const size_t kinds = last_kind(maker) + 1;
    const size_t lows = 4;
    size_t words = from_to(maker, 1, RANDOM_WORDS_MOST);
    bool like_heads = !one_in(maker, ANY_WORDS_ODDS);

    start_record(record);
    for (; words > 0; words--) {
        /* Named one by one: arguments have no fixed order in C. */
        size_t kind = below(maker, kinds);
        size_t low = below(maker, lows);

        if (like_heads)
            put_kind(maker->sink, kind, low);
        else
            put_word(maker->sink, (uint16_t)next_random(maker));
    }
}

static void write_row(struct outlet *out, const struct row *row)
{
    struct record record;
    struct maker maker = maker_into(&record.sink, row->seed);

    maker.number_odds = row->number_odds;
    for (size_t i = 0; i < row->well_formed; i++) {
        put_well_formed(&maker, &record);
        end_record(&record, out);
    }
    for (size_t i = 0; i < row->damaged; i++) {
        put_well_formed(&maker, &record);
        damage_word(&maker, &record);
        end_record(&record, out);
    }
    for (size_t i = 0; i < row->random_words; i++) {
        put_random_words(&maker, &record);
        end_record(&record, out);
    }
}

void write_random_rules(struct outlet *out)
{
    write_row(out, &first_version);
}

void write_random_numbers(struct outlet *out)
{
    write_row(out, &second_version);
}
