#include "designs.h"

#include <inttypes.h>
#include <stdarg.h>
#include <stdio.h>
#include <string.h>

#include "chance.h"
#include "model.h"

/* ---- a design that keeps every rule */

enum { R, B, K, I, D };

static uint32_t kinds[PINS], ends[ARCS][2];
static size_t pins, arcs, tests, spread;

/* A pin below p of one of the kinds in `set`, a bit for each; p where there is none. Near ones are taken more often when `near` is set. */
static size_t driver(size_t p, unsigned set, int near)
{
    size_t tried = near ? 1 + below(6) : p;
    for (size_t i = 0; i < 40; i++) {
        size_t q = near && tried < p ? p - 1 - below(tried) : below(p);
        if (q < p && (set >> kinds[q] & 1))
            return q;
        tried += 2;
    }
    for (size_t q = p; q-- > 0;)
        if (set >> kinds[q] & 1)
            return q;
    return p;
}

static void add_arc(size_t from, size_t to)
{
    ends[arcs][0] = (uint32_t)from;
    ends[arcs][1] = (uint32_t)to;
    arcs++;
}

/* A kind for pin p, with the arc or arcs that it must have. R is given beforehand. */
static void add_pin(size_t p, size_t root, int near)
{
    static const unsigned clock = 1u << R | 1u << B, data = 1u << K | 1u << I | 1u << D;
    unsigned wish = p == root + 1 && !once_in(6) ? 0 : (unsigned)below(10);
    kinds[p] = I;
    if (p == root) {
        kinds[p] = R;
    } else if (p > root && wish < (p < pins / 2 ? 5 : 2)) {
        kinds[p] = wish % 2 ? B : K;
        add_arc(driver(p, clock, near), p);
    } else if (wish < 9) {
        size_t from = driver(p, data, near);
        if (from < p) {
            kinds[p] = D;
            add_arc(from, p);
        }
    }
}

/* More arcs into D pins, some of them with equal ends. */
static void more_arcs(size_t wanted, int near)
{
    for (size_t i = 0; i < wanted && arcs < ARCS; i++) {
        size_t p = below(pins);
        if (kinds[p] == D)
            add_arc(driver(p, 1u << K | 1u << I | 1u << D, near), p);
    }
    for (size_t i = arcs; i-- > 1;) {
        size_t j = below(i + 1);
        uint32_t from = ends[i][0], to = ends[i][1];
        memcpy(ends[i], ends[j], sizeof ends[i]);
        ends[j][0] = from;
        ends[j][1] = to;
    }
}

/* A time within the limit: small ones make ties. */
static uint32_t a_time(void) { return (uint32_t)below(spread + 1); }

static void put(struct table *t, uint32_t number) { t->number[t->length++] = number; }

static void put_range(struct table *t)
{
    uint32_t one = a_time(), other = once_in(3) ? one : a_time();
    put(t, one < other ? one : other);
    put(t, one < other ? other : one);
}

static void put_pins(struct table *t)
{
    for (size_t p = 0; p < pins; p++) {
        put(t, kinds[p]);
        if (kinds[p] == R || kinds[p] == I) {
            put_range(t);
        } else {
            put(t, 0);
            put(t, 0);
        }
    }
}

static void put_tests(struct table *t)
{
    size_t wanted = tests;
    tests = 0;
    for (size_t i = 0; i < wanted; i++) {
        size_t clock = driver(pins, 1u << K, 0), data = driver(pins, 1u << D, once_in(2));
        if (clock == pins || data == pins)
            break;
        put(t, (uint32_t)clock);
        put(t, (uint32_t)data);
        put(t, a_time());
        put(t, a_time());
        tests++;
    }
    t->number[2] = (uint32_t)tests;
}

void design_make(struct table *t)
{
    static const size_t sizes[] = {1, 5, 8, 12, 18, 26, 60, 240}, spreads[] = {0, 1, 2, 5, 50, 1000, LIMIT, LIMIT};
    size_t size = sizes[below(once_in(5) ? 8 : 6)];
    pins = once_in(400) ? PINS : size + below(size);
    if (pins > PINS)
        pins = PINS;
    spread = spreads[below(8)];
    size_t root = below(once_in(2) ? 1 : pins > 4 ? 4 : pins);
    int near = once_in(2);
    arcs = 0;
    for (size_t p = 0; p < pins; p++)
        add_pin(p, root, near);
    more_arcs(once_in(400) ? ARCS : below((once_in(3) ? 4 : 1) * pins), near);
    tests = once_in(100) ? TESTS : once_in(12) ? 0 : 1 + below(once_in(4) ? 20 : 4);
    t->length = 0;
    put(t, (uint32_t)pins);
    put(t, (uint32_t)arcs);
    put(t, 0);
    put(t, 1 + (uint32_t)below(once_in(2) ? LIMIT : spread + 1 > LIMIT ? LIMIT : spread + 1));
    put_pins(t);
    for (size_t a = 0; a < arcs; a++) {
        put(t, ends[a][0]);
        put(t, ends[a][1]);
        put_range(t);
    }
    put_tests(t);
}

/* ---- its text */

static void say(struct text *x, const char *form, ...)
{
    char line[128];
    va_list words;
    va_start(words, form);
    int size = vsnprintf(line, sizeof line, form, words);
    va_end(words);
    if (size > 0 && x->length + (size_t)size <= MOST_BYTES) {
        memcpy(x->byte + x->length, line, (size_t)size);
        x->length += (size_t)size;
    }
}

void design_text(const struct table *t, struct text *x)
{
    const uint32_t *n = t->number;
    x->length = 0;
    say(x, "design\t%" PRIu32 "\t%" PRIu32 "\t%" PRIu32 "\t%" PRIu32 "\n", n[0], n[1], n[2], n[3]);
    const uint32_t *at = n + 4;
    for (uint32_t i = 0; i < n[0]; i++, at += 3) {
        if (at[0] == R || at[0] == I)
            say(x, "pin\t%c\t%" PRIu32 "\t%" PRIu32 "\n", "RBKID"[at[0]], at[1], at[2]);
        else
            say(x, "pin\t%c\n", "RBKID"[at[0]]);
    }
    for (uint32_t i = 0; i < n[1] + n[2]; i++, at += 4)
        say(x, "%s\t%" PRIu32 "\t%" PRIu32 "\t%" PRIu32 "\t%" PRIu32 "\n", i < n[1] ? "arc" : "test", at[0], at[1], at[2], at[3]);
    if (!once_in(4))
        say(x, "ask\t%s\t%zu\n", once_in(2) ? "setup" : "hold", once_in(10) ? below(30) : 1 + below(16));
}
