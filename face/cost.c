/*
 * One call, on everything it is to be measured on, and nothing else: the number of instructions of a run less that of
 * a run with the call `n`, which does all but the call, is the call's cost. See face/cost.
 *
 *   cost SIDE CALL corpus FILE     the call on each accepted rule of a corpus
 *   cost SIDE CALL SHAPE WORDS     the call on one rule of a shape
 *   cost words FILE                the rules of a corpus that are accepted, and their words
 *   cost same FILE                 whether both sides reply alike, words and all, on a corpus and on every shape
 *   cost stack                     the deepest stack of each call, of those on rules at depth 64
 *
 * SIDE is o (the proved archive) or p (the second translator); CALL is n (none), c (check), m (measure) or w (write).
 */
#define _GNU_SOURCE
#include <stdbool.h>
#include <stdint.h>
#include <stdio.h>
#include <stdlib.h>
#include <string.h>
#include <ucontext.h>

#include "../peer/generators/corpus.h"
#include "../peer/translator/image.h"
#include "number.h"
#include "peatnickel.h"
#include "shapes.h"

/* The rules kept of a corpus, which today has 5,506; and the stack lent to a call, far more than any of them uses. */
enum { RULES_MOST = 8192, STACK_BYTES = 1 << 22 };

struct rule {
    uint16_t version;
    struct word_list list;
};

typedef uint32_t (*call)(struct rule rule);

static uint16_t out[PEATNICKEL_IMAGE_WORDS];

static uint32_t none(struct rule rule)
{
    (void)rule;
    return 0;
}

static uint32_t our_check(struct rule rule)
{
    return peatnickel_check(rule.version, rule.list.words, rule.list.count);
}

static uint32_t our_measure(struct rule rule)
{
    return peatnickel_measure(rule.version, rule.list.words, rule.list.count);
}

static uint32_t our_write(struct rule rule)
{
    return peatnickel_write(out, PEATNICKEL_IMAGE_WORDS, rule.version, rule.list.words, rule.list.count);
}

static uint32_t peer_check(struct rule rule)
{
    return number_of(check_rule(rule.version, rule.list), 0);
}

static uint32_t peer_measure(struct rule rule)
{
    struct reply reply = measure_image(rule.version, rule.list);

    return number_of(reply.refusal, reply.count);
}

static uint32_t peer_write(struct rule rule)
{
    struct reply reply = write_image(rule.version, rule.list, out, PEATNICKEL_IMAGE_WORDS);

    return number_of(reply.refusal, reply.count);
}

static call call_of(char side, char name)
{
    switch (name) {
    case 'c':
        return side == 'o' ? our_check : peer_check;
    case 'm':
        return side == 'o' ? our_measure : peer_measure;
    case 'w':
        return side == 'o' ? our_write : peer_write;
    default:
        return none;
    }
}

static struct rule rules[RULES_MOST];
static size_t rule_count;

/* The records of a corpus, all or those that are accepted. A corpus of more than there is room for is none. */
static void read_corpus(const char *path, bool accepted_only)
{
    FILE *in = fopen(path, "rb");
    struct corpus *corpus = in == NULL ? NULL : open_corpus(in);

    if (corpus == NULL)
        exit(EXIT_FAILURE);
    while (next_record(corpus)) {
        struct rule rule = { record_version(corpus), record_words(corpus) };
        uint16_t *words = malloc((rule.list.count + 1) * sizeof *words);

        if (words == NULL || rule_count == RULES_MOST)
            exit(EXIT_FAILURE);
        memcpy(words, rule.list.words, rule.list.count * sizeof *words);
        rule.list.words = words;
        if (!accepted_only || peer_check(rule) == 0)
            rules[rule_count++] = rule;
    }
    if (!close_corpus(corpus))
        exit(EXIT_FAILURE);
    fclose(in);
}

static struct rule shape_rule(const struct shape *shape, size_t words)
{
    static uint16_t room[PEATNICKEL_RULE_WORDS];
    struct word_sink sink = sink_into(room, PEATNICKEL_RULE_WORDS);

    shape->put(&sink, words);
    return (struct rule){ shape->version, sink_words(&sink) };
}

static bool same(struct rule rule)
{
    static uint16_t theirs[PEATNICKEL_IMAGE_WORDS];
    uint32_t count = peer_write(rule);

    memcpy(theirs, out, sizeof out);
    return our_check(rule) == peer_check(rule) && our_measure(rule) == peer_measure(rule) && our_write(rule) == count &&
           memcmp(out, theirs, sizeof out) == 0;
}

static int compare_all(const char *path)
{
    size_t wrong = 0;

    read_corpus(path, false);
    for (size_t i = 0; i < rule_count; i++)
        wrong += !same(rules[i]);
    for (size_t i = 0; i < GROWN_SHAPES; i++)
        for (size_t words = 64; words <= PEATNICKEL_RULE_WORDS; words *= 8) {
            struct rule rule = shape_rule(&grown_shapes[i], words);

            wrong += !same(rule) || rule.list.count != words || our_check(rule) != 0;
        }
    for (size_t i = 0; i < DEEP_SHAPES; i++) {
        struct rule rule = shape_rule(&deep_shapes[i], PEATNICKEL_RULE_WORDS);

        wrong += !same(rule) || our_check(rule) != 0;
    }
    printf("%zu rules and %d shapes: %zu differ\n", rule_count, 3 * GROWN_SHAPES + DEEP_SHAPES, wrong);
    return wrong == 0 ? EXIT_SUCCESS : EXIT_FAILURE;
}

static int count_words(const char *path)
{
    size_t words = 0;
    size_t image_words = 0;

    read_corpus(path, true);
    for (size_t i = 0; i < rule_count; i++) {
        words += rules[i].list.count;
        image_words += peer_measure(rules[i]);
    }
    printf("%zu %zu %zu\n", rule_count, words, image_words);
    return EXIT_SUCCESS;
}

/*
 * The stack: a painted one is lent to the call, and as soon as it has returned, still on that stack, the deepest byte
 * that lost its paint is looked for.
 */
static unsigned char stack[STACK_BYTES];
static unsigned char stack_paint;
static size_t stack_untouched;
static ucontext_t here;
static ucontext_t there;
static call stack_call;
static struct rule stack_rule;

static void on_the_stack(void)
{
    size_t untouched = 0;

    stack_call(stack_rule);
    while (untouched < sizeof stack && stack[untouched] == stack_paint)
        untouched++;
    stack_untouched = untouched;
}

static size_t deepest_with(call function, struct rule rule, unsigned char paint)
{
    memset(stack, paint, sizeof stack);
    stack_paint = paint;
    stack_call = function;
    stack_rule = rule;
    getcontext(&there);
    there.uc_stack.ss_sp = stack;
    there.uc_stack.ss_size = sizeof stack;
    there.uc_link = &here;
    makecontext(&there, on_the_stack, 0);
    swapcontext(&here, &there);
    return sizeof stack - stack_untouched;
}

/* With two paints, for a byte may be written with the paint's own value. */
static size_t deepest(call function, struct rule rule)
{
    size_t one = deepest_with(function, rule, 0xA5);
    size_t other = deepest_with(function, rule, 0x5A);

    return one > other ? one : other;
}

static uint8_t file[PEATNICKEL_RULE_FILE_BYTES];

static uint32_t our_pack(struct rule rule)
{
    return peatnickel_pack(file, sizeof file, PEATNICKEL_RULES, rule.version, rule.list.words, rule.list.count);
}

/* Of the file that was packed last. */
static uint32_t our_unpack(struct rule rule)
{
    return peatnickel_reply_of(peatnickel_unpack(out, PEATNICKEL_IMAGE_WORDS, PEATNICKEL_RULES, file,
                                                 PEATNICKEL_FILE_BYTES(rule.list.count)));
}

static int show_stack(void)
{
    for (size_t i = 0; i < DEEP_SHAPES; i++) {
        struct rule rule = shape_rule(&deep_shapes[i], PEATNICKEL_RULE_WORDS);
        const call calls[] = { our_check, our_measure, our_write, our_pack, our_unpack, peer_write };
        size_t nothing = deepest(none, rule);

        printf("%s|%zu", deep_shapes[i].name, rule.list.count);
        for (size_t j = 0; j < sizeof calls / sizeof calls[0]; j++)
            printf("|%zu", deepest(calls[j], rule) - nothing);
        putchar('\n');
    }
    return EXIT_SUCCESS;
}

static int make_calls(char side, char name, const char *what, const char *detail)
{
    call function = call_of(side, name);

    if (strcmp(what, "corpus") == 0) {
        read_corpus(detail, true);
    } else {
        rules[0] = shape_rule(&grown_shapes[atoi(what)], (size_t)atoi(detail));
        rule_count = 1;
    }
    for (size_t i = 0; i < rule_count; i++)
        function(rules[i]);
    return EXIT_SUCCESS;
}

int main(int argc, char **argv)
{
    if (argc == 5)
        return make_calls(argv[1][0], argv[2][0], argv[3], argv[4]);
    if (argc == 3 && strcmp(argv[1], "same") == 0)
        return compare_all(argv[2]);
    if (argc == 3 && strcmp(argv[1], "words") == 0)
        return count_words(argv[2]);
    if (argc == 2 && strcmp(argv[1], "stack") == 0)
        return show_stack();
    fputs("see the head of face/cost.c\n", stderr);
    return EXIT_FAILURE;
}
