/* Memory lent to the library. Guard bytes stand around the contents. Lent at the edge, the contents end where memory
 * begins that cannot be touched, so that a read beyond them ends the program too. */
#ifndef LENT_H
#define LENT_H

#include <stdint.h>
#include <stdio.h>
#include <stdlib.h>
#include <string.h>
#include <sys/mman.h>

enum { LENT_AREA = 1 << 18, LENT_GUARD = 64 };

struct lent {
    uint8_t *area;
    uint8_t *contents;
    size_t size;
    size_t after; /* guard bytes after the contents; before them there are LENT_GUARD */
};

static inline uint8_t lent_guard(size_t i) { return (uint8_t)(0xA5 + 29 * i); }

static inline void lent_open(struct lent *lent)
{
    void *area = mmap(NULL, 2 * LENT_AREA, PROT_READ | PROT_WRITE, MAP_PRIVATE | MAP_ANONYMOUS, -1, 0);
    if (area == MAP_FAILED || mprotect((uint8_t *)area + LENT_AREA, LENT_AREA, PROT_NONE) != 0) {
        perror("lent memory");
        exit(2);
    }
    lent->area = (uint8_t *)area;
}

/* Lends a copy of that many bytes. */
static inline void *lend(struct lent *lent, const void *bytes, size_t size, int at_edge)
{
    size_t i;
    if (size > LENT_AREA - 2 * LENT_GUARD) {
        fprintf(stderr, "%zu bytes are too many to lend\n", size);
        exit(2);
    }
    lent->size = size;
    lent->after = at_edge ? 0 : LENT_GUARD;
    lent->contents = lent->area + LENT_AREA - lent->after - size;
    for (i = 0; i < LENT_GUARD; i++)
        lent->contents[i - LENT_GUARD] = lent_guard(i);
    for (i = 0; i < lent->after; i++)
        lent->contents[size + i] = lent_guard(i);
    if (size > 0)
        memcpy(lent->contents, bytes, size);
    return lent->contents;
}

static inline int guards_kept(const struct lent *lent)
{
    size_t i;
    for (i = 0; i < LENT_GUARD; i++)
        if (lent->contents[i - LENT_GUARD] != lent_guard(i) ||
            (i < lent->after && lent->contents[lent->size + i] != lent_guard(i)))
            return 0;
    return 1;
}

static inline int holds(const struct lent *lent, const void *bytes)
{
    return lent->size == 0 || memcmp(lent->contents, bytes, lent->size) == 0;
}

#endif
