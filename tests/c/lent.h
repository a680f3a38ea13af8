/* Memory lent to the calls under test: each run ends at a page that no one may touch, and what stands around it is watched. */
#ifndef LENT_H
#define LENT_H

#include <stddef.h>
#include <stdint.h>
#include <stdio.h>
#include <stdlib.h>
#include <string.h>
#include <sys/mman.h>

#include "bones.h"

enum { GUARD = 1 << 16, PATTERN = 0x5a };

/* sizes of arenas: for most runs, and for the longest texts */
enum { ARENA = 1 << 16, TEXT_ARENA = 1 << 17 };

struct arena {
    uint8_t *base; /* then the forbidden page */
    size_t size;   /* of the whole, without that page */
    size_t length; /* of the run that is lent, at the arena's end */
};

static inline void arena_make(struct arena *arena, size_t size)
{
    uint8_t *base = mmap(NULL, size + GUARD, PROT_READ | PROT_WRITE, MAP_PRIVATE | MAP_ANONYMOUS, -1, 0);
    if (base == MAP_FAILED || mprotect(base + size, GUARD, PROT_NONE) != 0) {
        perror("arena");
        exit(2);
    }
    arena->base = base;
    arena->size = size;
    arena->length = 0;
}

static inline uint8_t *arena_run(const struct arena *arena) { return arena->base + arena->size - arena->length; }

/* a run of the pattern; NULL where its length is 0, as a caller would have it */
static inline uint8_t *arena_lend(struct arena *arena, size_t length)
{
    memset(arena->base, PATTERN, arena->size);
    arena->length = length;
    return length == 0 ? NULL : arena_run(arena);
}

/* a run with the bytes given */
static inline const uint8_t *arena_copy(struct arena *arena, const void *bytes, size_t length)
{
    uint8_t *run = arena_lend(arena, length);
    if (length != 0)
        memcpy(run, bytes, length);
    return run;
}

/* Runs of records: an arena ends at a page, so that a run of whole records at its end is aligned for them. */
static inline struct bones_link *arena_lend_links(struct arena *arena, size_t count)
{
    return (struct bones_link *)(void *)arena_lend(arena, count * sizeof(struct bones_link));
}

static inline const struct bones_link *arena_copy_links(struct arena *arena, const struct bones_link *links, size_t count)
{
    return (const struct bones_link *)(const void *)arena_copy(arena, links, count * sizeof *links);
}

/* whether the bytes are all the pattern: the first is, and each is the one after it */
static inline int all_pattern(const uint8_t *bytes, size_t length)
{
    return length == 0 || (bytes[0] == PATTERN && memcmp(bytes, bytes + 1, length - 1) == 0);
}

/* whether everything but the first `written` bytes of the run holds the pattern still */
static inline int arena_kept(const struct arena *arena, size_t written)
{
    return all_pattern(arena->base, arena->size - arena->length) && all_pattern(arena_run(arena) + written, arena->length - written);
}

/* whether the run begins with the bytes given, and everything else holds the pattern still */
static inline int arena_wrote(const struct arena *arena, const void *bytes, size_t written)
{
    return written <= arena->length && arena_kept(arena, written) && (written == 0 || memcmp(arena_run(arena), bytes, written) == 0);
}

/* whether the run holds the bytes given, and all around it the pattern */
static inline int arena_same(const struct arena *arena, const void *bytes, size_t length)
{
    return arena->length == length && arena_wrote(arena, bytes, length);
}

#endif
