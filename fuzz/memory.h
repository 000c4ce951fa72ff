/*
 * Lent memory between guards. Each buffer stands in pages of its own between two pages that cannot be touched, its end at
 * the upper one or its start at the lower one: any byte read or written beyond that edge stops the program. The rest of its
 * pages is filled with a pattern, which must still stand afterwards.
 */
#ifndef MEMORY_H
#define MEMORY_H

#include <stddef.h>
#include <stdint.h>

struct lent {
    uint8_t *pages;
    size_t size;
    uint8_t *at;
    size_t bytes;
    uint8_t *before;
};

/* Pages for a buffer of at most so many bytes. */
void memory_make(struct lent *l, size_t most);

/* Lends so many bytes of random content. `low`: at the lower edge. */
void memory_lend(struct lent *l, size_t bytes, int low);

/* Remembers what stands in the buffer; whether from a place on it still does; whether the guards do. */
void memory_note(struct lent *l);
int memory_stays(const struct lent *l, size_t from);
int memory_guarded(const struct lent *l);

#endif
