#include "arena.h"

#include <stdalign.h>
#include <stdint.h>
#include <stdio.h>
#include <stdlib.h>

enum { CHUNK_BYTES = 1 << 16 };

struct arena_chunk {
    struct arena_chunk *older;
    size_t used;
    size_t size;
    alignas(max_align_t) unsigned char bytes[];
};

struct arena arena_with_limit(size_t limit)
{
    return (struct arena){ .newest = NULL, .taken = 0, .limit = limit };
}

struct arena arena_without_limit(void)
{
    return arena_with_limit(SIZE_MAX);
}

static size_t aligned_size(size_t bytes)
{
    const size_t step = alignof(max_align_t);

    return (bytes + step - 1) / step * step;
}

static void add_chunk(struct arena *arena, size_t at_least)
{
    size_t size = at_least > CHUNK_BYTES ? at_least : CHUNK_BYTES;
    struct arena_chunk *chunk = malloc(sizeof *chunk + size);

    if (chunk == NULL) {
        fputs("peer: out of memory\n", stderr);
        exit(EXIT_FAILURE);
    }
    chunk->older = arena->newest;
    chunk->used = 0;
    chunk->size = size;
    arena->newest = chunk;
}

void *arena_take(struct arena *arena, size_t bytes)
{
    size_t size = aligned_size(bytes);
    struct arena_chunk *chunk = arena->newest;

    if (chunk == NULL || chunk->size - chunk->used < size) {
        add_chunk(arena, size);
        chunk = arena->newest;
    }
    void *piece = chunk->bytes + chunk->used;
    chunk->used += size;
    arena->taken += size;
    return piece;
}

bool arena_is_spent(const struct arena *arena)
{
    return arena->taken >= arena->limit;
}

void arena_release(struct arena *arena)
{
    while (arena->newest != NULL) {
        struct arena_chunk *older = arena->newest->older;

        free(arena->newest);
        arena->newest = older;
    }
    arena->taken = 0;
}
