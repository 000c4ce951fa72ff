#include "memory.h"

#include <stdio.h>
#include <stdlib.h>
#include <string.h>
#include <sys/mman.h>

#include "chance.h"

enum { PAGE = 4096, PATTERN = 0xc3 };

void memory_make(struct lent *l, size_t most)
{
    l->size = (most + PAGE - 1) / PAGE * PAGE + PAGE;
    uint8_t *all = mmap(NULL, l->size + 2 * PAGE, PROT_NONE, MAP_PRIVATE | MAP_ANONYMOUS, -1, 0);
    l->before = malloc(l->size);
    if (all == MAP_FAILED || l->before == NULL || mprotect(all + PAGE, l->size, PROT_READ | PROT_WRITE) != 0) {
        perror("memory");
        exit(2);
    }
    l->pages = all + PAGE;
    memset(l->pages, PATTERN, l->size);
    l->at = l->pages;
    l->bytes = 0;
}

void memory_lend(struct lent *l, size_t bytes, int low)
{
    memset(l->at, PATTERN, l->bytes);
    l->bytes = bytes;
    l->at = low ? l->pages : l->pages + l->size - bytes;
    for (size_t i = 0; i < bytes; i += 8) {
        uint64_t number = chance_next();
        memcpy(l->at + i, &number, bytes - i < 8 ? bytes - i : 8);
    }
}

void memory_note(struct lent *l) { memcpy(l->before, l->at, l->bytes); }

int memory_stays(const struct lent *l, size_t from) { return from > l->bytes || memcmp(l->before + from, l->at + from, l->bytes - from) == 0; }

/* The pattern stands for 256 bytes on the side of the buffer that is not at the edge; the other side is the page that cannot be touched. */
int memory_guarded(const struct lent *l)
{
    const uint8_t *side = l->at == l->pages ? l->at + l->bytes : l->at - 256;
    size_t bytes = 256;
    if (l->at == l->pages && l->bytes + bytes > l->size)
        bytes = l->size - l->bytes;
    for (size_t i = 0; i < bytes; i++)
        if (side[i] != PATTERN)
            return 0;
    return 1;
}
