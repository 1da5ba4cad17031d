/* Memory that is taken piece by piece and given back all at once. */
#ifndef PEER_ARENA_H
#define PEER_ARENA_H

#include <stdbool.h>
#include <stddef.h>

struct arena_chunk;

struct arena {
    struct arena_chunk *newest;
    size_t taken;
    size_t limit;
};

/* The limit is soft: whoever loops asks arena_is_spent and stops. */
struct arena arena_with_limit(size_t limit);
struct arena arena_without_limit(void);

/* Never NULL: the program ends when the machine has no memory left. */
void *arena_take(struct arena *arena, size_t bytes);

bool arena_is_spent(const struct arena *arena);

void arena_release(struct arena *arena);

#endif
