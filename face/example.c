/*
 * Translates a rule: the first argument is its version, 1 or 2, and the others are its words, in hex. Prints the
 * image's word count and its first words, or the refusal's number and place. README.md, "Use it from C", has the
 * commands.
 */
#include <stdio.h>
#include <stdlib.h>

#include "peatnickel.h"

enum { VERSION = 1, FIRST_WORD = 2, DECIMAL = 10, HEX = 16, SHOWN_WORDS = 8 };

static uint16_t rule[PEATNICKEL_RULE_WORDS + 1]; /* one more than a rule may have, so that a longer one is refused */
static uint16_t image[PEATNICKEL_IMAGE_WORDS];   /* room for the image of any rule */

/* The version that a text says. A number that is wider than a version becomes 0, which is refused, and is not cut. */
static uint16_t version_in(const char *text)
{
    unsigned long number = strtoul(text, NULL, DECIMAL);

    return (uint16_t)(number <= UINT16_MAX ? number : 0);
}

int main(int argc, char **argv)
{
    uint16_t version = version_in(argc > VERSION ? argv[VERSION] : "");
    size_t words = 0;
    uint32_t reply;

    for (; words + FIRST_WORD < (size_t)argc && words <= PEATNICKEL_RULE_WORDS; words++)
        rule[words] = (uint16_t)strtoul(argv[words + FIRST_WORD], NULL, HEX);

    reply = peatnickel_measure(version, rule, words);
    if (!peatnickel_is_refusal(reply)) {
        printf("the image has %lu words:", (unsigned long)reply);
        reply = peatnickel_write(image, PEATNICKEL_IMAGE_WORDS, version, rule, words);
    }
    if (peatnickel_is_refusal(reply)) {
        printf("refused by test %lu at word %lu\n", (unsigned long)peatnickel_refusal_of(reply),
               (unsigned long)peatnickel_place_of(reply));
        return EXIT_FAILURE;
    }
    for (uint32_t i = 0; i < reply && i < SHOWN_WORDS; i++)
        printf(" %04X", (unsigned)image[i]);
    printf("%s\n", reply > SHOWN_WORDS ? " ..." : "");
    return EXIT_SUCCESS;
}
