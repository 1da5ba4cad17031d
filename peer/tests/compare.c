#include "compare.h"

#include <ctype.h>
#include <stdbool.h>
#include <stdlib.h>
#include <string.h>

#include "../generators/corpus.h"

enum { FIRST_ROOM = 1 << 16 };

struct text {
    char *start;
    size_t length;
    size_t next;
};

/* One reply, or what stands in its stead; nothing where none is left. */
struct span {
    const char *start;
    size_t length;
};

static void stop(const char *what, const char *name)
{
    fprintf(stderr, "peer: %s: %s\n", what, name);
    exit(EXIT_FAILURE);
}

static struct text read_text(const char *name)
{
    FILE *file = fopen(name, "rb");
    struct text text = { NULL, 0, 0 };
    size_t room = FIRST_ROOM;

    if (file == NULL)
        stop("cannot be opened", name);
    do {
        room *= 2;
        text.start = realloc(text.start, room);
        if (text.start == NULL)
            stop("out of memory", name);
        text.length +=
            fread(text.start + text.length, 1, room - text.length, file);
    } while (text.length == room);
    if (ferror(file))
        stop("cannot be read", name);
    fclose(file);
    return text;
}

static size_t end_of_line(const struct text *text, size_t place)
{
    const char *found =
        memchr(text->start + place, '\n', text->length - place);

    return found == NULL ? text->length : (size_t)(found - text->start) + 1;
}

/* A reply goes on to the next line that starts with a word, not a number. */
static struct span next_reply(struct text *text)
{
    size_t first = text->next;
    size_t end = first;

    while (end < text->length &&
           (end == first || !islower((unsigned char)text->start[end])))
        end = end_of_line(text, end);
    text->next = end;
    return (struct span){ text->start + first, end - first };
}

static bool are_same(struct span left, struct span right)
{
    return left.length == right.length &&
           memcmp(left.start, right.start, left.length) == 0;
}

static void print_reply(FILE *out, const char *name, struct span reply)
{
    fprintf(out, "%s:\n", name);
    if (reply.length == 0)
        fputs("no reply\n", out);
    fwrite(reply.start, 1, reply.length, out);
    if (reply.length > 0 && reply.start[reply.length - 1] != '\n')
        putc('\n', out);
}

/* The rule in question, unless the records have ended. */
static void print_where(FILE *out, const struct corpus *corpus, size_t records,
                        bool more)
{
    if (!more) {
        fprintf(out, "difference after %zu records\n", records);
        return;
    }
    fprintf(out, "difference at record %zu, of version %u, of the words\n",
            records - 1, (unsigned)record_version(corpus));
    print_words(out, record_words(corpus));
}

/* Past the last record there must be nothing on either side. */
int compare_replies(FILE *in, const char *replies, const char *other_replies,
                    FILE *out)
{
    struct corpus *corpus = open_corpus(in);
    struct text one = read_text(replies);
    struct text other = read_text(other_replies);
    struct span reply, other_reply;
    size_t records = 0;
    bool same, more;

    do {
        more = next_record(corpus);
        reply = next_reply(&one);
        other_reply = next_reply(&other);
        same = are_same(reply, other_reply) && (reply.length > 0) == more;
        records += more;
    } while (same && more);
    if (!same) {
        print_where(out, corpus, records, more);
        print_reply(out, replies, reply);
        print_reply(out, other_replies, other_reply);
    }
    free(one.start);
    free(other.start);
    return close_corpus(corpus) && same ? EXIT_SUCCESS : EXIT_FAILURE;
}
