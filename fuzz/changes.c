/* What is done to texts and tables. */
#include <stdio.h>
#include <string.h>

#include "chance.h"
#include "designs.h"
#include "model.h"

/* ---- texts */

/* Puts bytes in the place of others, as far as the text has room. */
static void replace(struct text *x, size_t at, size_t old, const void *bytes, size_t size)
{
    if (at > x->length || old > x->length - at || x->length - old + size > MOST_BYTES)
        return;
    memmove(x->byte + at + size, x->byte + at + old, x->length - at - old);
    memcpy(x->byte + at, bytes, size);
    x->length = x->length - old + size;
}

static uint8_t a_byte(void)
{
    static const char likely[] = "\t\t\t\n\n\n0123456789 \r-+.RBKIDrpasetdgnkchuoltw\0\xff\x80";
    return once_in(8) ? (uint8_t)below(256) : (uint8_t)likely[below(sizeof likely - 1)];
}

/* Where the line around a place begins, and where the next one does. */
static void line_around(const struct text *x, size_t at, size_t *from, size_t *to)
{
    *from = at;
    while (*from > 0 && x->byte[*from - 1] != '\n')
        (*from)--;
    *to = at;
    while (*to < x->length && x->byte[*to] != '\n')
        (*to)++;
    *to += *to < x->length;
}

static void change_bytes(struct text *x)
{
    uint8_t byte = a_byte();
    size_t at = below(x->length + 1);
    switch (below(4)) {
    case 0: replace(x, at, at < x->length, &byte, 1); break;
    case 1: replace(x, at, 0, &byte, 1); break;
    case 2: replace(x, at, 1, &byte, 0); break;
    default:
        if (at < x->length)
            x->byte[at] ^= (uint8_t)(1u << below(8));
    }
}

static void change_lines(struct text *x)
{
    static uint8_t line[256];
    size_t from, to, other, end;
    line_around(x, below(x->length + 1), &from, &to);
    size_t size = to - from < sizeof line ? to - from : sizeof line;
    memcpy(line, x->byte + from, size);
    switch (below(4)) {
    case 0: replace(x, from, to - from, line, 0); break;
    case 1: replace(x, from, 0, line, size); break;
    case 2:
        replace(x, from, to - from, line, 0);
        line_around(x, below(x->length + 1), &other, &end);
        replace(x, other, 0, line, size);
        break;
    default: x->length = once_in(2) ? from : from + below(to - from + 1);
    }
}

/* Puts another number, or what looks like one, in the place of a field of digits. */
static void change_number(struct text *x)
{
    static const char *const likely[] = {"0", "1", "2", "00", "01", "007", "5", "15", "16", "17", "63", "64", "65", "255", "256", "257", "1023", "1024", "1025",
                                         "999999", "1000000", "1000001", "9999999", "10000000", "99999999999999999999", "", "-1", "+1", "1 ", "1e3", "0x1"};
    size_t at = below(x->length + 1), size = 0;
    while (at < x->length && (x->byte[at] < '0' || x->byte[at] > '9'))
        at++;
    while (at + size < x->length && x->byte[at + size] >= '0' && x->byte[at + size] <= '9')
        size++;
    char own[24];
    int length = snprintf(own, sizeof own, "%zu", below(once_in(2) ? 20 : 1100000));
    const char *word = once_in(3) ? own : likely[below(sizeof likely / sizeof *likely)];
    replace(x, at, size, word, word == own ? (size_t)length : strlen(word));
}

/* A text about as long as a text may be. */
static void lengthen(struct text *x)
{
    size_t wanted = TEXT - 2 + below(5);
    uint8_t byte = a_byte();
    while (x->length < wanted)
        x->byte[x->length++] = once_in(50) ? a_byte() : byte;
    if (once_in(2))
        x->byte[x->length - 1] = '\n';
}

static void noise(struct text *x)
{
    x->length = below(once_in(10) ? 2000 : 60);
    for (size_t i = 0; i < x->length; i++)
        x->byte[i] = a_byte();
}

void text_change(struct text *x)
{
    if (once_in(300)) {
        lengthen(x);
        return;
    }
    if (once_in(40)) {
        noise(x);
        return;
    }
    for (size_t i = 1 + below(once_in(4) ? 6 : 2); i > 0; i--) {
        size_t kind = below(10);
        if (kind < 3)
            change_bytes(x);
        else if (kind < 5)
            change_lines(x);
        else
            change_number(x);
    }
}

/* ---- tables */

static uint32_t a_number(const struct table *t)
{
    static const uint32_t likely[] = {0,    1,    2,    3,         4,     5,         6,          63,         64,         65,        255, 256, 257,
                                      1023, 1024, 1025, LIMIT - 1, LIMIT, LIMIT + 1, 0x55555555, 0x40000000, 0x80000000, UINT32_MAX};
    uint32_t there = t->length == 0 ? 0 : t->number[below(t->length)];
    switch (below(4)) {
    case 0: return there;
    case 1: return there + (uint32_t)below(3) - 1;
    case 2: return (uint32_t)below(once_in(2) ? 8 : 300);
    default: return likely[below(sizeof likely / sizeof *likely)];
    }
}

/* A place of a table: pins, arcs and tests each as often as the other, and the header now and then. */
static size_t a_place(const struct table *t)
{
    if (t->length < 4 || once_in(12))
        return below(t->length < 4 ? t->length : 4);
    size_t behind_pins = 4 + 3 * (size_t)t->number[0], behind_arcs = behind_pins + 4 * (size_t)t->number[1];
    size_t from[] = {4, behind_pins, behind_arcs}, to[] = {behind_pins, behind_arcs, t->length};
    size_t part = below(3), at = from[part] + below(to[part] > from[part] ? to[part] - from[part] : 0);
    return at < t->length ? at : below(t->length);
}

static void change_length(struct table *t)
{
    size_t length = once_in(2) ? t->length + below(3) - 1 : below(t->length + 4);
    if (length > MOST_NUMBERS)
        return;
    for (size_t i = t->length; i < length; i++)
        t->number[i] = a_number(t);
    t->length = length;
}

/* Takes one arc out, or puts one in twice, and says so in the header: a wrong number of arcs into a pin, if not more. */
static void change_arcs(struct table *t)
{
    size_t behind = t->length < 4 ? 0 : 4 + 3 * (size_t)t->number[0];
    if (behind == 0 || t->number[1] == 0 || behind + 4 * (size_t)t->number[1] > t->length || t->length + 4 > MOST_NUMBERS)
        return;
    size_t at = behind + 4 * below(t->number[1]), rest = t->length - at;
    if (once_in(2)) {
        memmove(t->number + at, t->number + at + 4, (rest - 4) * sizeof *t->number);
        t->number[1]--;
        t->length -= 4;
    } else {
        memmove(t->number + at + 4, t->number + at, rest * sizeof *t->number);
        t->number[1]++;
        t->length += 4;
    }
}

void table_change(struct table *t)
{
    if (once_in(8)) {
        change_arcs(t);
        return;
    }
    for (size_t i = 1 + below(once_in(4) ? 6 : 2); i > 0; i--) {
        if (once_in(15))
            change_length(t);
        else if (t->length > 0) {
            size_t at = a_place(t);
            t->number[at] = a_number(t);
        }
    }
}
