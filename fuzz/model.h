/*
 * A third implementation of document 01, in C, for the fuzz driver alone: written from the document's sentences, without the library's code or methods.
 * Paths are enumerated and compared by the stated order where there are few; where there are many, the first 16 of each pin are kept as whole lists of arcs.
 */
#ifndef MODEL_H
#define MODEL_H

#include <stddef.h>
#include <stdint.h>

enum { PINS = 256, ARCS = 1024, TESTS = 64, MOST_K = 16, TEXT = 65536, TABLE = 5124, ROOM = 4176, WORK = 8192 };
enum { LIMIT = 1000000, TOTAL = 1000000000 };

/* What the model says of a reading: number 0 where it is accepted; then the table stands in `table`. */
struct model_reading {
    uint32_t number, mode;
    size_t place, length, k;
    uint32_t table[TABLE];
};

struct model_refusal {
    uint32_t number;
    size_t place;
};

/* What the model says of an asking: number 0 where it is accepted; then the rows stand in `room`, `written` numbers. */
struct model_answer {
    uint32_t number;
    size_t place, rows, written;
    uint64_t total;
    int64_t room[ROOM];
};

void model_read(const uint8_t *text, size_t length, size_t table_room, struct model_reading *r);
void model_line(const uint8_t *text, size_t length, size_t n, size_t *start, size_t *size);
struct model_refusal model_check(const uint32_t *table, size_t length);
void model_ask(const uint32_t *table, size_t length, uint32_t mode, size_t k, size_t room, size_t work, struct model_answer *a);

#endif
