/*
 * chthonyra.h: the worst timing paths of a hard block after common clock path credit, for C and C++.
 *
 * Build the archive with `rt lib` in crates/chthonyra and link crates/chthonyra/out/libchthonyra.a. It is for Linux on x86-64 and wants nothing but
 * memcpy and memset of the C library: no heap, no files, no threads, no state of its own. Calls on different buffers may run at the same time.
 *
 * Every call answers, at every input. `refusal` is 0 where the operation answered; else it is a number of the table below, `place` says where, and
 * every other number of the struct is 0. A refused call writes nothing.
 *
 * What the caller owes, since a C compiler cannot see it: each pointer leads to as many numbers as its length says, aligned for their type and not NULL
 * (with length 0 any pointer that is not NULL will do); memory that a call may write does not overlap any other memory that is lent to the same call.
 * A length that is too small for the answer is no error of the caller's: it is refused (5, 15 or 16).
 *
 *  no.  when                                                                              place
 *   1   text over 65,536 bytes                                                            0
 *   2   the line due is absent, has no byte 10, has another word, or one follows the last the line, from 1
 *   3   wrong number of fields                                                            the line
 *   4   malformed number, unknown letter or mode word; sizes over their limits            the line
 *   5   table room shorter than needed                                                    0
 *   6   table length wrong, header outside limits                                         0
 *   7   pin: kind over 4, bad range, times on B, K or D                                   the pin
 *   8   not exactly one R                                                                 0
 *   9   arc: an end not below P, or from not below to                                     the arc
 *  10   arc: a kind that may not drive the other                                          the arc
 *  11   arc: bad range                                                                    the arc
 *  12   wrong number of arcs into a pin                                                   the pin
 *  13   test: clock no K, data no D, setup or hold over limit                             the test
 *  14   mode over 1, k outside 1 to 16                                                    0
 *  15   room below k * (P + 5), or work area short                                        0
 *  16   ranked list's count above its length                                              0
 */
#ifndef CHTHONYRA_H
#define CHTHONYRA_H

#include <stddef.h>
#include <stdint.h>

#ifdef __cplusplus
extern "C" {
#endif

/* Lengths that do for every design: of a text in bytes, of a table in 32-bit numbers, of the room for rows and of the work area in 64-bit numbers. */
#define CHTHONYRA_TEXT 65536
#define CHTHONYRA_TABLE 5124
#define CHTHONYRA_ROOM 4176
#define CHTHONYRA_WORK 8192

/* The most rows that may be asked for, and the modes. */
#define CHTHONYRA_K 16
#define CHTHONYRA_SETUP 0
#define CHTHONYRA_HOLD 1

/* The length of a table of so many pins, arcs and tests, and of one row of a design of so many pins. */
#define CHTHONYRA_TABLE_LENGTH(pins, arcs, tests) (4 + 3 * (size_t)(pins) + 4 * (size_t)(arcs) + 4 * (size_t)(tests))
#define CHTHONYRA_ROW(pins) ((size_t)(pins) + 5)

/* Where the numbers of a row stand; behind them the arcs from start to data pin, then zeros. */
#define CHTHONYRA_ROW_SLACK 0
#define CHTHONYRA_ROW_CREDIT 1
#define CHTHONYRA_ROW_TEST 2
#define CHTHONYRA_ROW_START 3
#define CHTHONYRA_ROW_ARCS 4
#define CHTHONYRA_ROW_FIRST_ARC 5

/* What a reading tells: the table's length, the mode and k. */
struct chthonyra_reading {
    uint32_t refusal;
    uint32_t mode;
    size_t place;
    size_t length;
    size_t k;
};

/* Where a line stands in its text: the offset of its first byte, and its length without byte 10. */
struct chthonyra_part {
    size_t start;
    size_t length;
};

/* What a check tells. */
struct chthonyra_checked {
    uint32_t refusal;
    size_t place;
};

/* What an asking tells: rows given and total, the number of all paths up to 1,000,000,000. */
struct chthonyra_answer {
    uint32_t refusal;
    size_t place;
    size_t rows;
    uint64_t total;
};

/* A candidate record of a ranked list. */
struct chthonyra_record {
    int64_t slack;
    uint64_t test;
    uint64_t serial;
};

/* What entering a record tells: the new count. */
struct chthonyra_entered {
    uint32_t refusal;
    size_t place;
    size_t count;
};

/* Reads a text into a table. Refusals 1 to 5. Places of the table beyond its length stay. */
struct chthonyra_reading chthonyra_read(const uint8_t *text, size_t text_length, uint32_t *table, size_t table_length);

/* Line n of a text, counted from 1: for showing the line that refusals 2, 3 and 4 name. Outside the lines the empty part at the text's end. */
struct chthonyra_part chthonyra_line(const uint8_t *text, size_t text_length, size_t n);

/* Checks a table. Refusals 6 to 13. */
struct chthonyra_checked chthonyra_check(const uint32_t *table, size_t table_length);

/*
 * The k worst paths of a table, worst first, as rows of CHTHONYRA_ROW(P) numbers at the front of the room. Refusals 6 to 15. Places of the room behind
 * the last row stay. After an answer the first CHTHONYRA_WORK numbers of the work area are zero, and those behind them stay; what it held before is all one.
 */
struct chthonyra_answer chthonyra_ask(const uint32_t *table, size_t table_length, uint32_t mode, size_t k, int64_t *room, size_t room_length,
                                      uint64_t *work, size_t work_length);

/*
 * Enters a record into a list of which the first `count` records stand: before the first that is greater by slack, test and serial in that order, or at the
 * end. In a full list the last falls out. Records behind the new count stay. Refusal 16.
 */
struct chthonyra_entered chthonyra_enter(struct chthonyra_record *list, size_t list_length, size_t count, struct chthonyra_record record);

#ifdef __cplusplus
}
#endif

#endif
