/*
 * Calls the functions of peatnickel.h that read rules, as a program in C does: on the paper's worked rules A to O and
 * those of the second version, on every refusal of a rule and its places, on outputs one word short, and at the limits.
 * Each call is told a version, and made on a painted output. The cases and the images beside those written out come
 * from the second translator, peer/. Files are face/packing.c's, and outputs that overlap an input face/overlap.c's.
 */
#include <stdbool.h>
#include <stdint.h>
#include <string.h>

#include "../peer/generators/cases.h"
#include "../peer/generators/gen_numbers.h"
#include "../peer/generators/gen_record.h"
#include "../peer/generators/number_cases.h"
#include "../peer/translator/image.h"
#include "expect.h"
#include "number.h"
#include "painted.h"
#include "peatnickel.h"
#include "written_out.h"

enum {
    WRONG_WORD = 0xFFFF,        /* neither a head nor a second word; of a number it may be a part */
    LONGEST_IMAGE = 28671,      /* words of it, one less than seven times the 4,096 of its rule */
    KINDS_OF_VERSION_2 = 0x0A00 /* the lowest head of kinds 10 and 11; words that are higher follow one of these */
};

/* The image, from the second translator. */
static struct word_list peer_image(uint16_t version, struct word_list rule)
{
    static uint16_t words[PEATNICKEL_IMAGE_WORDS];
    struct reply reply = write_image(version, rule, words, PEATNICKEL_IMAGE_WORDS);

    return (struct word_list){ words, reply.count };
}

/* One call that writes, with so much room: the image is written, and nothing else. */
static void try_writing(const char *name, uint16_t version, struct word_list rule, struct word_list image, size_t room)
{
    paint();
    expect_reply(peatnickel_write(words_out, room, version, rule.words, rule.count), image.count, "write", name);
    expect(front_is(image), "words written", name);
    expect(painted_but(image.count, 0), "all but the image is untouched", name);
}

/* A rule that is accepted: every call on it, with room to spare, just room, and one word too few. */
static void try_accepted(const char *name, uint16_t version, struct word_list rule, struct word_list image)
{
    expect_reply(peatnickel_check(version, rule.words, rule.count), 0, "check", name);
    expect_reply(peatnickel_measure(version, rule.words, rule.count), image.count, "measure", name);
    try_writing(name, version, rule, image, ROOM);
    try_writing(name, version, rule, image, image.count);
    paint();
    expect_reply(peatnickel_write(words_out, image.count - 1, version, rule.words, rule.count),
                 placeless(PEATNICKEL_NO_ROOM), "write, one word short", name);
    expect(painted(), "output one word short is untouched", name);
}

/* A rule that is refused: every call on it gives the number and the place, and nothing is touched. */
static void try_refused(const char *name, uint16_t version, struct word_list rule, uint32_t expected)
{
    paint();
    expect_reply(peatnickel_check(version, rule.words, rule.count), expected, "check", name);
    expect_reply(peatnickel_measure(version, rule.words, rule.count), expected, "measure", name);
    expect_reply(peatnickel_write(words_out, ROOM, version, rule.words, rule.count), expected, "write", name);
    expect_reply(peatnickel_write(NULL, 0, version, rule.words, rule.count), expected, "write to no output", name);
    expect(painted(), "output of a refusal is untouched", name);
}

/* A rule of which the second translator says whether it is accepted. */
static void try_rule(const char *name, uint16_t version, struct word_list rule)
{
    struct refusal refusal = check_rule(version, rule);

    if (refusal.number == REFUSED_NOTHING)
        try_accepted(name, version, rule, peer_image(version, rule));
    else
        try_refused(name, version, rule, number_of(refusal, 0));
}

static void accepted_rules(uint16_t version, const struct accepted_case *cases, size_t count)
{
    for (size_t i = 0; i < count; i++) {
        struct word_list image = peer_image(version, cases[i].rule);

        expect(image.count == cases[i].image_count, "the image's count", cases[i].name);
        try_accepted(cases[i].name, version, cases[i].rule, image);
    }
}

static void written_images(uint16_t version, const struct image_case *cases, size_t count)
{
    for (size_t i = 0; i < count; i++)
        try_accepted(cases[i].name, version, cases[i].rule, cases[i].image);
}

static void refused_rules(uint16_t version, const struct refused_case *cases, size_t count)
{
    for (size_t i = 0; i < count; i++)
        try_refused(cases[i].name, version, cases[i].rule, number_of(cases[i].refusal, 0));
}

/* Rules that version 1 refuses; told to be of version 2, some are refused by another test. */
static void refused_in_first(const struct refused_case *cases, size_t count)
{
    refused_rules(PEATNICKEL_LANGUAGE_1, cases, count);
    for (size_t i = 0; i < count; i++)
        try_rule(cases[i].name, PEATNICKEL_LANGUAGE_2, cases[i].rule);
}

/*
 * The worked rules: cases A to N with B's image, which the paper prints, and those that the later requests ask for.
 * What version 1 accepts version 2 does too, with the same image.
 */
static void worked_cases(void)
{
    for (uint16_t version = PEATNICKEL_LANGUAGE_1; version <= PEATNICKEL_LANGUAGE_2; version++) {
        struct word_list case_a = accepted_cases[0].rule;

        accepted_rules(version, accepted_cases, ACCEPTED_CASES);
        written_images(version, image_cases, IMAGE_CASES);
        try_accepted("case B, the paper's image", version, accepted_cases[1].rule, case_b_image);
        paint();
        expect_reply(peatnickel_write(words_out, N_SHORT_OUTPUT, version, case_a.words, case_a.count),
                     placeless(PEATNICKEL_NO_ROOM), "7 words", "case N");
        expect(painted(), "output untouched", "case N");
        expect_reply(peatnickel_write(words_out, N_LONG_ENOUGH_OUTPUT, version, case_a.words, case_a.count), 8,
                     "8 words", "case N");
    }
    refused_in_first(refused_cases, REFUSED_CASES);
    refused_in_first(place_cases, PLACE_CASES);
    refused_in_first(dead_cases, DEAD_CASES);
}

/* The first place of a kind that version 1 has not, in a rule that version 2 accepts. */
static size_t first_of_second(struct word_list rule)
{
    size_t place = 0;

    while (rule.words[place] < KINDS_OF_VERSION_2)
        place++;
    return place;
}

/* Numbers and operations; each of these rules in version 1 is refused where the first of them stands. */
static void numbers_and_operations(void)
{
    accepted_rules(PEATNICKEL_LANGUAGE_2, number_accepted, NUMBER_ACCEPTED);
    written_images(PEATNICKEL_LANGUAGE_2, number_images, NUMBER_IMAGES);
    written_images(PEATNICKEL_LANGUAGE_2, written_out, WRITTEN_OUT);
    refused_rules(PEATNICKEL_LANGUAGE_2, number_refused, NUMBER_REFUSED);
    refused_rules(PEATNICKEL_LANGUAGE_1, number_refused_in_first, NUMBER_REFUSED_IN_FIRST);
    for (size_t i = 0; i < NUMBER_ACCEPTED; i++)
        try_refused(number_accepted[i].name, PEATNICKEL_LANGUAGE_1, number_accepted[i].rule,
                    number_of_refusal(PEATNICKEL_WRONG_KIND, first_of_second(number_accepted[i].rule)));
}

/* Each low byte of the two kinds, before there is any other word: a number has 0, an operation 0 to 2. */
static void low_bytes(void)
{
    for (unsigned low = 0; low <= UINT8_MAX; low++) {
        const struct word_list number = WORD_LIST((uint16_t)(0x0A00 + low));
        const struct word_list operation = WORD_LIST((uint16_t)(0x0B00 + low));
        const uint32_t missing = number_of_refusal(PEATNICKEL_NONE_LEFT, 1);
        const uint32_t wrong = number_of_refusal(PEATNICKEL_OUT_OF_RANGE, 0);

        try_refused("a number's low byte", PEATNICKEL_LANGUAGE_2, number, low == 0 ? missing : wrong);
        try_refused("an operation's low byte", PEATNICKEL_LANGUAGE_2, operation, low <= 2 ? missing : wrong);
    }
}

/* A version that is neither is told before everything else: no words, too many, faults of a rule, and no room. */
static void unknown_version(uint16_t version)
{
    static const uint16_t many[PEATNICKEL_RULE_WORDS + 1];
    const uint32_t expected = placeless(PEATNICKEL_WRONG_VERSION);

    try_refused("no version, no words", version, (struct word_list){ NULL, 0 }, expected);
    try_refused("no version, 4,097 words", version, (struct word_list){ many, PEATNICKEL_RULE_WORDS + 1 }, expected);
    try_refused("no version, a rule", version, accepted_cases[0].rule, expected);
    try_refused("no version, a number", version, number_accepted[0].rule, expected);
    for (size_t i = 0; i < REFUSED_CASES; i++)
        try_refused("no version, a refused rule", version, refused_cases[i].rule, expected);
}

/* C cuts a version that is wider than the calls take, as the header says. */
static void cut_versions(void)
{
    const struct word_list number = written_out[0].rule;
    const uint32_t past = UINT16_MAX + 1;

    for (uint32_t version = 0; version <= UINT8_MAX; version++) {
        const uint32_t cut = past + version;

        expect_reply(peatnickel_check(cut, number.words, number.count),
                     peatnickel_check((uint16_t)version, number.words, number.count), "cut", "versions");
    }
}

/* Every version of 16 bits; some near to one that there is, or with its low byte, on more than one rule. */
static void versions(void)
{
    struct word_list rule = accepted_cases[0].rule;

    for (uint32_t version = 0; version <= UINT16_MAX; version++) {
        const bool known = version == PEATNICKEL_LANGUAGE_1 || version == PEATNICKEL_LANGUAGE_2;

        expect_reply(peatnickel_check((uint16_t)version, rule.words, rule.count),
                     known ? 0 : placeless(PEATNICKEL_WRONG_VERSION), "check", "versions");
    }
    for (size_t i = 0; i < UNKNOWN_VERSIONS; i++)
        unknown_version(unknown_versions[i]);
    cut_versions();
}

/* So many functions, each the body of the one before it, around the words. */
static void put_below(struct word_sink *sink, size_t functions, struct word_list words)
{
    put_case_o(sink, functions);
    sink->count = functions;
    put_words(sink, words);
}

/* Case O: 63 functions around a constructor are accepted, 64 are too deep; and likewise around a number. */
static void try_case_o(uint16_t version, struct word_list innermost)
{
    static uint16_t words[PEATNICKEL_RULE_WORDS];
    struct word_sink sink = sink_into(words, PEATNICKEL_RULE_WORDS);

    put_below(&sink, O_REFUSED_FUNCTIONS, innermost);
    try_refused("case O, 64 functions", version, sink_words(&sink),
                number_of_refusal(PEATNICKEL_TOO_DEEP, O_REFUSED_FUNCTIONS));
    sink = sink_into(words, PEATNICKEL_RULE_WORDS);
    put_below(&sink, O_ACCEPTED_FUNCTIONS, innermost);
    try_accepted("case O, 63 functions", version, sink_words(&sink), peer_image(version, sink_words(&sink)));
}

/* An operation stands at the last depth, but its parts do not. */
static void deepest_operation(void)
{
    static uint16_t words[PEATNICKEL_RULE_WORDS];
    struct word_sink sink = sink_into(words, PEATNICKEL_RULE_WORDS);

    put_below(&sink, O_ACCEPTED_FUNCTIONS, written_out[1].rule);
    try_refused("an operation at depth 64", PEATNICKEL_LANGUAGE_2, sink_words(&sink),
                number_of_refusal(PEATNICKEL_TOO_DEEP, O_ACCEPTED_FUNCTIONS + 1));
}

static void depths(void)
{
    try_case_o(PEATNICKEL_LANGUAGE_1, accepted_cases[0].rule);
    try_case_o(PEATNICKEL_LANGUAGE_2, accepted_cases[0].rule);
    try_case_o(PEATNICKEL_LANGUAGE_2, written_out[0].rule);
    deepest_operation();
}

/* A rule of 4,096 words is read, and its last places are told; one of 4,097 is not. */
static void longest_rules(uint16_t version)
{
    static uint16_t words[PEATNICKEL_RULE_WORDS + 1];
    struct word_sink sink = sink_into(words, PEATNICKEL_RULE_WORDS + 1);

    put_filler(&sink, PEATNICKEL_RULE_WORDS);
    try_rule("4,096 words of one value", version, sink_words(&sink));
    sink = sink_into(words, PEATNICKEL_RULE_WORDS + 1);
    put_words(&sink, (struct word_list)WORD_LIST(0x0401, 0x0201, 0x0100));
    put_filler(&sink, PEATNICKEL_RULE_WORDS - sink.count);
    try_rule("4,096 words of a call", version, sink_words(&sink));
    sink = sink_into(words, PEATNICKEL_RULE_WORDS + 1);
    put_filler(&sink, PEATNICKEL_RULE_WORDS + 1);
    try_refused("4,097 words", version, sink_words(&sink), placeless(PEATNICKEL_TOO_MANY_WORDS));
    sink.count = PEATNICKEL_RULE_WORDS;
    try_refused("4,096 words and one missing", version, sink_words(&sink),
                number_of_refusal(PEATNICKEL_NONE_LEFT, PEATNICKEL_RULE_WORDS));
    sink = sink_into(words, PEATNICKEL_RULE_WORDS + 1);
    put_filler(&sink, PEATNICKEL_RULE_WORDS - 1);
    put_words(&sink, (struct word_list)WORD_LIST(WRONG_WORD));
    try_refused("4,095 words and one left over", version, sink_words(&sink),
                number_of_refusal(PEATNICKEL_LEFT_OVER, PEATNICKEL_RULE_WORDS - 1));
}

/* A pair of 4,096 words in all, the last of them a number's first so many. */
static void try_last_number(size_t of_number, uint32_t expected)
{
    static uint16_t words[PEATNICKEL_RULE_WORDS];
    const struct word_list number = written_out[0].rule;
    struct word_sink sink = sink_into(words, PEATNICKEL_RULE_WORDS);

    put_two(&sink, KIND_CONSTRUCTOR, 0, 2);
    put_filler(&sink, PEATNICKEL_RULE_WORDS - sink.count - of_number);
    put_words(&sink, (struct word_list){ number.words, of_number });
    expect_reply(peatnickel_check(PEATNICKEL_LANGUAGE_2, words, sink.count), expected, "check", "a number at the end");
    try_rule("a number at the end of 4,096 words", PEATNICKEL_LANGUAGE_2, sink_words(&sink));
}

/* Of version 2: the longest image that a rule has, and a number that ends with the longest rule or is cut by it. */
static void longest_of_second(void)
{
    static uint16_t words[PEATNICKEL_RULE_WORDS];
    struct word_sink sink = sink_into(words, PEATNICKEL_RULE_WORDS);

    put_sums(&sink, PEATNICKEL_RULE_WORDS);
    expect_reply(peatnickel_measure(PEATNICKEL_LANGUAGE_2, words, sink.count), LONGEST_IMAGE, "measure",
                 "the longest image");
    try_rule("the longest image", PEATNICKEL_LANGUAGE_2, sink_words(&sink));
    try_last_number(3, 0);
    try_last_number(2, number_of_refusal(PEATNICKEL_NONE_LEFT, PEATNICKEL_RULE_WORDS));
    try_last_number(1, number_of_refusal(PEATNICKEL_NONE_LEFT, PEATNICKEL_RULE_WORDS));
}

/* A refusal's parts are read from the reply; a count is none. */
static void replies(void)
{
    const size_t places[] = { 0, 1, 255, 256, PEATNICKEL_RULE_WORDS - 1, PEATNICKEL_RULE_WORDS };

    for (uint32_t number = 0; number <= LAST_REFUSAL; number++)
        for (size_t i = 0; i < sizeof places / sizeof places[0]; i++) {
            uint32_t reply = number_of_refusal(number, places[i]);

            expect(peatnickel_is_refusal(reply), "is a refusal", "replies");
            expect(peatnickel_refusal_of(reply) == number, "number", "replies");
            expect(peatnickel_place_of(reply) == places[i], "place", "replies");
        }
    expect(number_of_refusal(PEATNICKEL_OUT_OF_RANGE, 0) == 65541, "5 at 0", "replies");
    expect(number_of_refusal(PEATNICKEL_OUT_OF_RANGE, 17) == 1179653, "5 at 17", "replies");
    expect(!peatnickel_is_refusal(0) && !peatnickel_is_refusal(PEATNICKEL_REFUSALS - 1), "counts", "replies");
}

/* A rule with one word wrong. Where that is no part of a number it is the word tested; the peer says by which test. */
static void spoil(const char *name, uint16_t version, struct word_list rule)
{
    static uint16_t words[PEATNICKEL_RULE_WORDS];
    struct word_list spoiled = { words, rule.count };

    for (size_t place = 0; place < rule.count; place++) {
        memcpy(words, rule.words, rule.count * sizeof words[0]);
        words[place] = WRONG_WORD;
        const enum refusal_number number = check_rule(version, spoiled).number;

        if (number == REFUSED_NOTHING)
            try_accepted(name, version, spoiled, peer_image(version, spoiled));
        else
            try_refused(name, version, spoiled, number_of_refusal(number, place));
    }
}

/* A rule cut after each of its words, and with a word more. */
static void cut_and_lengthen(const char *name, uint16_t version, struct word_list rule)
{
    static uint16_t words[PEATNICKEL_RULE_WORDS];

    for (size_t count = 1; count < rule.count; count++)
        try_refused(name, version, (struct word_list){ rule.words, count },
                    number_of_refusal(PEATNICKEL_NONE_LEFT, count));
    memcpy(words, rule.words, rule.count * sizeof words[0]);
    words[rule.count] = words[0];
    try_refused(name, version, (struct word_list){ words, rule.count + 1 },
                number_of_refusal(PEATNICKEL_LEFT_OVER, rule.count));
}

static void spoiled_rules(uint16_t version, const struct accepted_case *cases, size_t count)
{
    for (size_t i = 0; i < count; i++) {
        spoil(cases[i].name, version, cases[i].rule);
        cut_and_lengthen(cases[i].name, version, cases[i].rule);
    }
}

int main(void)
{
    static const uint32_t of_rules[] = { PEATNICKEL_NO_WORDS,      PEATNICKEL_TOO_MANY_WORDS, PEATNICKEL_NONE_LEFT,
                                         PEATNICKEL_WRONG_KIND,    PEATNICKEL_OUT_OF_RANGE,   PEATNICKEL_TOO_DEEP,
                                         PEATNICKEL_UNBOUND,       PEATNICKEL_LEFT_OVER,      PEATNICKEL_NO_ROOM,
                                         PEATNICKEL_WRONG_VERSION, PEATNICKEL_DEAD_ARM };

    replies();
    worked_cases();
    numbers_and_operations();
    low_bytes();
    versions();
    depths();
    spoiled_rules(PEATNICKEL_LANGUAGE_1, accepted_cases, ACCEPTED_CASES);
    spoiled_rules(PEATNICKEL_LANGUAGE_2, accepted_cases, ACCEPTED_CASES);
    spoiled_rules(PEATNICKEL_LANGUAGE_2, number_accepted, NUMBER_ACCEPTED);
    longest_rules(PEATNICKEL_LANGUAGE_1);
    longest_rules(PEATNICKEL_LANGUAGE_2);
    longest_of_second();
    expect_given(of_rules, sizeof of_rules / sizeof of_rules[0]);
    return tally();
}
