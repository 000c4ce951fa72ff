/* The model's reading: lines, fields, refusals 1 to 5. */
#include <string.h>

#include "model.h"

struct field {
    const uint8_t *at;
    size_t size;
};


/* Line n as the text's own bytes; whether it has its byte 10. 0 where there is no line n. */
static int find_line(const uint8_t *text, size_t length, size_t n, size_t *start, size_t *size, int *ended)
{
    size_t at = 0, number = 1;
    while (at < length) {
        const uint8_t *end = memchr(text + at, '\n', length - at);
        size_t here = end ? (size_t)(end - (text + at)) : length - at;
        if (number == n) {
            *start = at;
            *size = here;
            *ended = end != NULL;
            return 1;
        }
        at += here + (end != NULL);
        number++;
    }
    return 0;
}

void model_line(const uint8_t *text, size_t length, size_t n, size_t *start, size_t *size)
{
    int ended;
    if (!find_line(text, length, n, start, size, &ended)) {
        *start = length;
        *size = 0;
    }
}

/* The fields of a line: one more than its tabs; at most 8 are kept. */
static size_t cut(const uint8_t *line, size_t size, struct field *fields)
{
    size_t count = 0, from = 0;
    for (size_t i = 0; i <= size; i++)
        if (i == size || line[i] == '\t') {
            if (count < 8)
                fields[count] = (struct field){line + from, i - from};
            count++;
            from = i + 1;
        }
    return count;
}

static int is(struct field f, const char *word)
{
    return f.size == strlen(word) && memcmp(f.at, word, f.size) == 0;
}

/* 1 to 7 digits, no leading zero but 0 itself. */
static int number_of(struct field f, uint32_t *value)
{
    if (f.size < 1 || f.size > 7 || (f.size > 1 && f.at[0] == '0'))
        return 0;
    *value = 0;
    for (size_t i = 0; i < f.size; i++) {
        if (f.at[i] < '0' || f.at[i] > '9')
            return 0;
        *value = *value * 10 + (f.at[i] - '0');
    }
    return 1;
}

static int numbers(const struct field *fields, size_t count, uint32_t *out)
{
    for (size_t i = 0; i < count; i++)
        if (!number_of(fields[i], out + i))
            return 0;
    return 1;
}

static int refuse(struct model_reading *r, uint32_t number, size_t place)
{
    r->number = number;
    r->place = place;
    return 0;
}

/* The fields of the line due, if it is there, is ended, and begins with the word. */
static int due(const uint8_t *text, size_t length, size_t n, const char *word, struct field *fields, size_t *count, struct model_reading *r)
{
    size_t start, size;
    int ended;
    if (!find_line(text, length, n, &start, &size, &ended) || !ended)
        return refuse(r, 2, n);
    *count = cut(text + start, size, fields);
    return is(fields[0], word) ? 1 : refuse(r, 2, n);
}

static int read_fixed(const uint8_t *text, size_t length, size_t n, const char *word, uint32_t *out, struct model_reading *r)
{
    struct field fields[8];
    size_t count;
    if (!due(text, length, n, word, fields, &count, r))
        return 0;
    if (count != 5)
        return refuse(r, 3, n);
    return numbers(fields + 1, 4, out) ? 1 : refuse(r, 4, n);
}

static int read_pin(const uint8_t *text, size_t length, size_t n, uint32_t *out, struct model_reading *r)
{
    static const char *const letters[] = {"R", "B", "K", "I", "D"};
    struct field fields[8];
    size_t count;
    uint32_t kind = 0;
    if (!due(text, length, n, "pin", fields, &count, r))
        return 0;
    if (count == 1)
        return refuse(r, 3, n);
    while (kind < 5 && !is(fields[1], letters[kind]))
        kind++;
    if (kind == 5)
        return refuse(r, 4, n);
    out[0] = kind;
    out[1] = out[2] = 0;
    if (kind == 0 || kind == 3) {
        if (count != 4)
            return refuse(r, 3, n);
        return numbers(fields + 2, 2, out + 1) ? 1 : refuse(r, 4, n);
    }
    return count == 2 ? 1 : refuse(r, 3, n);
}

static int read_asking(const uint8_t *text, size_t length, size_t n, struct model_reading *r)
{
    struct field fields[8];
    size_t count, start, size;
    uint32_t k;
    int ended;
    r->mode = 0;
    r->k = 1;
    if (!find_line(text, length, n, &start, &size, &ended))
        return 1;
    if (!due(text, length, n, "ask", fields, &count, r))
        return 0;
    if (count != 3)
        return refuse(r, 3, n);
    r->mode = is(fields[1], "hold");
    if ((r->mode == 0 && !is(fields[1], "setup")) || !number_of(fields[2], &k))
        return refuse(r, 4, n);
    r->k = k;
    return find_line(text, length, n + 1, &start, &size, &ended) ? refuse(r, 2, n + 1) : 1;
}

static int read_body(const uint8_t *text, size_t length, struct model_reading *r)
{
    uint32_t *out = r->table + 4;
    size_t n = 2;
    for (uint32_t i = 0; i < r->table[0]; i++, n++, out += 3)
        if (!read_pin(text, length, n, out, r))
            return 0;
    for (uint32_t i = 0; i < r->table[1]; i++, n++, out += 4)
        if (!read_fixed(text, length, n, "arc", out, r))
            return 0;
    for (uint32_t i = 0; i < r->table[2]; i++, n++, out += 4)
        if (!read_fixed(text, length, n, "test", out, r))
            return 0;
    r->length = (size_t)(out - r->table);
    return read_asking(text, length, n, r);
}

void model_read(const uint8_t *text, size_t length, size_t table_room, struct model_reading *r)
{
    r->number = 0;
    r->place = 0;
    if (length > TEXT) {
        refuse(r, 1, 0);
        return;
    }
    if (!read_fixed(text, length, 1, "design", r->table, r))
        return;
    if (r->table[0] == 0 || r->table[0] > PINS || r->table[1] > ARCS || r->table[2] > TESTS) {
        refuse(r, 4, 1);
        return;
    }
    if (read_body(text, length, r) && r->length > table_room)
        refuse(r, 5, 0);
}
