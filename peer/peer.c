/* The program: its first argument says what it does, none means the bench. */
#include <stdbool.h>
#include <stdio.h>
#include <stdlib.h>
#include <string.h>

#include "generators/fuzz.h"
#include "generators/gen.h"
#include "tests/compare.h"
#include "tests/demand3.h"
#include "tests/replies.h"
#include "tests/selftest.h"
#include "translator/file.h"
#include "translator/image.h"
#include "translator/words.h"

/* "If more than 8,199 bytes arrive it prints `no 2`" */
enum {
    FILE_BYTES_MOST = FILE_HEADER_BYTES + BYTES_OF_A_WORD * RULE_WORDS_MOST
};

struct input {
    uint16_t words[RULE_WORDS_MOST];
    struct unpacking unpacked;
};

static void read_input(FILE *in, struct input *input)
{
    uint8_t bytes[FILE_BYTES_MOST + 1];
    size_t count = fread(bytes, sizeof bytes[0], sizeof bytes, in);
    struct byte_list file = { bytes, count };

    if (count > FILE_BYTES_MOST)
        input->unpacked = (struct unpacking){
            .reply = { { REFUSED_TOO_MANY_WORDS, 0 }, 0 }
        };
    else
        input->unpacked =
            unpack_file(FORM_RULE, file, input->words, RULE_WORDS_MOST);
}

static struct word_list input_rule(const struct input *input)
{
    return (struct word_list){ input->words, input->unpacked.reply.count };
}

static bool is_refused(struct refusal refusal, FILE *out)
{
    if (refusal.number == REFUSED_NOTHING)
        return false;
    print_refusal(out, refusal);
    return true;
}

static int translate(FILE *in, FILE *out)
{
    struct input input;
    uint16_t image[IMAGE_WORDS_MOST];

    read_input(in, &input);
    if (is_refused(input.unpacked.reply.refusal, out))
        return EXIT_SUCCESS;
    struct reply reply =
        write_image(input.unpacked.version, input_rule(&input), image,
                    IMAGE_WORDS_MOST);
    if (is_refused(reply.refusal, out))
        return EXIT_SUCCESS;
    fprintf(out, "ok %zu\n", reply.count);
    print_words(out, (struct word_list){ image, reply.count });
    return EXIT_SUCCESS;
}

/* Its words; a number also in decimal digits. */
static void print_value(FILE *out, struct arena *arena,
                        const struct term *value)
{
    print_words(out, value_words(arena, value));
    if (value->kind == KIND_NUMBER)
        fprintf(out, "number %lu\n", (unsigned long)value->number);
}

static void print_result(FILE *out, const char *name, struct arena *arena,
                         const struct run_result *result)
{
    static const char *const outcomes[] = { [CAME_TO_VALUE] = "came to a value",
                                            [NO_VALUE] = "no value",
                                            [GAVE_UP] = "gave up" };
    const struct counts *counts = &result->counts;

    fprintf(out, "%s: %s\n", name, outcomes[result->outcome]);
    if (result->outcome == CAME_TO_VALUE)
        print_value(out, arena, result->value);
    fprintf(out, "values %zu, calls %zu, lets %zu, matches %zu, built %zu\n",
            counts->values, counts->calls, counts->lets, counts->matches,
            counts->built);
}

static int run_rule_and_image(FILE *in, FILE *out)
{
    struct input input;

    read_input(in, &input);
    if (is_refused(input.unpacked.reply.refusal, out))
        return EXIT_SUCCESS;
    struct arena arena = arena_for_runs();
    struct both_runs runs =
        run_both(&arena, input.unpacked.version, input_rule(&input));
    if (!is_refused(runs.refusal, out)) {
        print_result(out, "rule", &arena, &runs.of_rule);
        print_result(out, "image", &arena, &runs.of_image);
    }
    arena_release(&arena);
    return EXIT_SUCCESS;
}

/* Decimal digits and nothing else. */
static bool read_decimal(const char *text, unsigned long most,
                         unsigned long *number)
{
    const int base = 10;
    char *end;

    *number = strtoul(text, &end, base);
    return text[0] >= '0' && text[0] <= '9' && *end == '\0' &&
           *number <= most;
}

/* SEED FIRST COUNT BYTES */
static int write_random_records(char **arguments, FILE *out)
{
    const unsigned long most = UINT32_MAX;
    unsigned long seed, first, count, bytes;

    if (!read_decimal(arguments[0], most, &seed) ||
        !read_decimal(arguments[1], most, &first) ||
        !read_decimal(arguments[2], most, &count) ||
        !read_decimal(arguments[3], most, &bytes)) {
        fputs("peer: not a number below 4294967296\n", stderr);
        return EXIT_FAILURE;
    }
    struct stretch stretch = { (uint32_t)seed, first, count, bytes };
    fprintf(stderr, "%zu\n", write_stretch(out, stretch));
    return ferror(out) ? EXIT_FAILURE : EXIT_SUCCESS;
}

static int say_usage(void)
{
    fputs("usage: peer [corpus | demand3 | gen | run | selftest |\n"
          "             random SEED FIRST COUNT BYTES |\n"
          "             compare REPLIES OTHER_REPLIES]\n",
          stderr);
    return EXIT_FAILURE;
}

static int choose_mode(const char *mode)
{
    if (strcmp(mode, "corpus") == 0)
        return translate_corpus(stdin, stdout);
    if (strcmp(mode, "demand3") == 0)
        return demand3_over_corpus(stdin, stdout);
    if (strcmp(mode, "gen") == 0)
        return generate_corpus(stdout);
    if (strcmp(mode, "run") == 0)
        return run_rule_and_image(stdin, stdout);
    if (strcmp(mode, "selftest") == 0)
        return run_selftest(stdout);
    return say_usage();
}

/* The modes are told apart by their names and by how much each is given. */
static int choose(int count, char **arguments)
{
    const int compare_arguments = 3;
    const int random_arguments = 5;

    if (count == 0)
        return translate(stdin, stdout);
    if (count == 1)
        return choose_mode(arguments[0]);
    if (count == compare_arguments && strcmp(arguments[0], "compare") == 0)
        return compare_replies(stdin, arguments[1], arguments[2], stdout);
    if (count == random_arguments && strcmp(arguments[0], "random") == 0)
        return write_random_records(arguments + 1, stdout);
    return say_usage();
}

int main(int argument_count, char **arguments)
{
    int status = choose(argument_count - 1, arguments + 1);

    if (fflush(stdout) != 0 || ferror(stdin))
        return EXIT_FAILURE;
    return status;
}
