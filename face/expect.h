/* What a test program counts: its checks, and those that do not hold. For the one file of it that makes them. */
#ifndef FACE_EXPECT_H
#define FACE_EXPECT_H

#include <stdbool.h>
#include <stdio.h>
#include <stdlib.h>

static unsigned checks;
static unsigned failures;

/* One check; where it does not hold it is printed, with the case's name. */
static void expect(bool holds, const char *what, const char *name)
{
    checks++;
    if (holds)
        return;
    failures++;
    printf("wrong: %s: %s\n", name, what);
}

/* Prints the tally; the program's exit status. */
static int tally(void)
{
    printf("%u checks, %u failures\n", checks, failures);
    return failures == 0 ? EXIT_SUCCESS : EXIT_FAILURE;
}

#endif
