#include "tally.h"

#include "../translator/image.h"

enum { UNTOUCHED_WORD = 0xA5A5 };

void expect(struct tally *tally, bool holds, const char *name,
            const char *claim)
{
    if (holds) {
        tally->passed++;
        return;
    }
    tally->failed++;
    fprintf(tally->out, "selftest: %s: not so: %s\n", name, claim);
}

bool is_refusal(struct refusal found, struct refusal expected)
{
    return found.number == expected.number && found.place == expected.place;
}

bool is_placeless(struct refusal found, enum refusal_number number)
{
    return is_refusal(found, (struct refusal){ number, 0 });
}

void lend_words(uint16_t *words)
{
    for (size_t i = 0; i < LENT_WORDS; i++)
        words[i] = UNTOUCHED_WORD;
}

bool untouched_from(const uint16_t *words, size_t first)
{
    for (size_t i = first; i < LENT_WORDS; i++)
        if (words[i] != UNTOUCHED_WORD)
            return false;
    return true;
}

bool every_call_refuses(uint16_t version, struct word_list rule,
                        struct refusal refusal)
{
    uint16_t output[LENT_WORDS];

    lend_words(output);
    return is_refusal(check_rule(version, rule), refusal) &&
           is_refusal(measure_image(version, rule).refusal, refusal) &&
           is_refusal(
               write_image(version, rule, output, LENT_WORDS).refusal,
               refusal) &&
           untouched_from(output, 0);
}
