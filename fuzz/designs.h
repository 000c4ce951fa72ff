/* Designs that keep every rule, and what is done to them: texts and tables, whole and changed. */
#ifndef DESIGNS_H
#define DESIGNS_H

#include <stddef.h>
#include <stdint.h>

enum { MOST_BYTES = 70000, MOST_NUMBERS = 5200 };

struct text {
    size_t length;
    uint8_t byte[MOST_BYTES];
};

struct table {
    size_t length;
    uint32_t number[MOST_NUMBERS];
};

/* A random design; its limits of size are drawn too, so that small ones are frequent. */
void design_make(struct table *t);

/* The table's text, with a line `ask` or without. */
void design_text(const struct table *t, struct text *x);

/* Changes a text or a table in some places; what comes out need not keep any rule. */
void text_change(struct text *x);
void table_change(struct table *t);

#endif
