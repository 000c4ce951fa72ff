/*
 * The library's C interface: the structs' layout, the header's lengths, and buffers of wrong size, which get their refusals and stay as they were.
 * What is expected is the document's: the table of refusals and the bench sheet. Run by tests/library.py; the last line is 'N passed, 0 failed'.
 */
#include <stdio.h>
#include <stdlib.h>
#include <string.h>

#include "chthonyra.h"

static const char sheet[] = "design\t7\t7\t2\t200\npin\tR\t0\t10\npin\tB\npin\tK\npin\tK\npin\tI\t5\t20\npin\tD\npin\tD\n"
                            "arc\t0\t1\t40\t60\narc\t1\t2\t10\t15\narc\t1\t3\t20\t30\narc\t2\t5\t100\t130\narc\t3\t5\t90\t120\narc\t4\t6\t30\t50\n"
                            "arc\t5\t6\t10\t20\ntest\t3\t6\t25\t12\ntest\t2\t5\t20\t10\nask\tsetup\t3\n";
static const uint8_t *const text = (const uint8_t *)sheet;
static const size_t text_length = sizeof sheet - 1;

static int passed, failed;

static void expect(int right, const char *what)
{
    if (right) {
        passed++;
    } else {
        failed++;
        printf("not so: %s\n", what);
    }
}

/* Memory of exactly so many bytes on the heap, so that an address checker sees one byte beyond it. */
static void *lent(size_t bytes)
{
    void *memory = malloc(bytes == 0 ? 1 : bytes);
    if (memory == NULL)
        exit(2);
    memset(memory, 0xa5, bytes == 0 ? 1 : bytes);
    return memory;
}

static int untouched(const void *memory, size_t bytes)
{
    const uint8_t *byte = memory;
    for (size_t i = 0; i < bytes; i++)
        if (byte[i] != 0xa5)
            return 0;
    return 1;
}

static void layout(void)
{
    expect(sizeof(struct chthonyra_reading) == 32 && offsetof(struct chthonyra_reading, k) == 24, "layout of a reading");
    expect(sizeof(struct chthonyra_part) == 16, "layout of a part");
    expect(sizeof(struct chthonyra_checked) == 16 && offsetof(struct chthonyra_checked, place) == 8, "layout of a check");
    expect(sizeof(struct chthonyra_answer) == 32 && offsetof(struct chthonyra_answer, total) == 24, "layout of an answer");
    expect(sizeof(struct chthonyra_record) == 24 && sizeof(struct chthonyra_entered) == 24, "layout of a record and of what entering it tells");
    expect(CHTHONYRA_TABLE == CHTHONYRA_TABLE_LENGTH(256, 1024, 64), "the largest table");
    expect(CHTHONYRA_ROOM == CHTHONYRA_K * CHTHONYRA_ROW(256), "the largest answer");
}

static void table_rooms(void)
{
    static const size_t lengths[] = {0, 1, 60, 61, 62, CHTHONYRA_TABLE};
    for (size_t i = 0; i < sizeof lengths / sizeof *lengths; i++) {
        size_t length = lengths[i];
        uint32_t *table = lent(length * sizeof *table);
        struct chthonyra_reading r = chthonyra_read(text, text_length, table, length);
        if (length < 61) {
            expect(r.refusal == 5 && r.place == 0 && r.length == 0 && r.mode == 0 && r.k == 0, "a short table room is refused");
            expect(untouched(table, length * sizeof *table), "a refused reading writes nothing");
        } else {
            expect(r.refusal == 0 && r.place == 0 && r.length == 61 && r.mode == CHTHONYRA_SETUP && r.k == 3, "the sheet is read");
            expect(table[0] == 7 && table[3] == 200 && table[60] == 10, "the sheet's table");
            expect(untouched(table + 61, (length - 61) * sizeof *table), "table places beyond the design stay");
        }
        free(table);
    }
}

/* One asking of the sheet in buffers of given lengths. */
static void asking(const uint32_t *table, size_t k, size_t room_length, size_t work_length, uint32_t refusal)
{
    int64_t *room = lent(room_length * sizeof *room);
    uint64_t *work = lent(work_length * sizeof *work);
    struct chthonyra_answer a = chthonyra_ask(table, 61, CHTHONYRA_SETUP, k, room, room_length, work, work_length);
    expect(a.refusal == refusal && a.place == 0, "the refusal, or none");
    if (refusal != 0) {
        expect(a.rows == 0 && a.total == 0, "nothing else is told");
        expect(untouched(room, room_length * sizeof *room) && untouched(work, work_length * sizeof *work), "a refused asking writes nothing");
    } else {
        size_t written = a.rows * CHTHONYRA_ROW(7);
        expect(a.rows == (k < 5 ? k : 5) && a.total == 5, "rows and total");
        expect(room[CHTHONYRA_ROW_SLACK] == 30 && room[CHTHONYRA_ROW_ARCS] == 2 && room[CHTHONYRA_ROW_FIRST_ARC] == 3, "the first row");
        expect(untouched(room + written, (room_length - written) * sizeof *room), "places behind the last row stay");
        int clear = 1;
        for (size_t i = 0; i < CHTHONYRA_WORK; i++)
            clear &= work[i] == 0;
        expect(clear, "the work area is cleared");
        expect(untouched(work + CHTHONYRA_WORK, (work_length - CHTHONYRA_WORK) * sizeof *work), "places beyond the work area stay");
    }
    free(room);
    free(work);
}

static void askings(void)
{
    uint32_t table[61];
    chthonyra_read(text, text_length, table, 61);
    asking(table, 3, 36, CHTHONYRA_WORK, 0);
    asking(table, 16, CHTHONYRA_ROOM, CHTHONYRA_WORK + 9, 0);
    asking(table, 3, 35, CHTHONYRA_WORK, 15);
    asking(table, 3, 0, CHTHONYRA_WORK, 15);
    asking(table, 16, 60, CHTHONYRA_WORK, 15);
    asking(table, 3, 36, CHTHONYRA_WORK - 1, 15);
    asking(table, 3, 36, 0, 15);
    asking(table, 0, 0, 0, 14);
    asking(table, 17, 0, 0, 14);
    asking(table, SIZE_MAX, 0, 0, 14);
}

static void tables(void)
{
    uint32_t table[62] = {0};
    chthonyra_read(text, text_length, table, 61);
    for (size_t length = 0; length <= 62; length++) {
        struct chthonyra_checked c = chthonyra_check(table, length);
        expect(c.refusal == (length == 61 ? 0 : 6) && c.place == 0, "only a table of its own length is accepted");
    }
    table[25 + 4 * 6] = 6;
    struct chthonyra_checked c = chthonyra_check(table, 61);
    expect(c.refusal == 9 && c.place == 6, "an arc that does not rise");
}

static void lines(void)
{
    struct chthonyra_part third = chthonyra_line(text, text_length, 3);
    expect(third.length == 5 && memcmp(text + third.start, "pin\tB", 5) == 0, "line 3");
    static const size_t outside[] = {0, 19, 20, SIZE_MAX};
    for (size_t i = 0; i < sizeof outside / sizeof *outside; i++) {
        struct chthonyra_part part = chthonyra_line(text, text_length, outside[i]);
        expect(part.start == text_length && part.length == 0, "outside the lines the empty part at the end");
    }
    struct chthonyra_part none = chthonyra_line(text, 0, 1);
    expect(none.start == 0 && none.length == 0, "a line of nothing");
}

/* One record into a list of given length with a given count; the list holds slacks 10, 20, 30, .. */
static void entering(size_t length, size_t count, int64_t slack, uint32_t refusal, size_t place)
{
    struct chthonyra_record *list = lent(length * sizeof *list);
    for (size_t i = 0; i < length; i++)
        list[i] = (struct chthonyra_record){10 * (int64_t)(i + 1), i, 7};
    struct chthonyra_entered e = chthonyra_enter(list, length, count, (struct chthonyra_record){slack, 5, 6});
    size_t after = count < length ? count + 1 : length;
    expect(e.refusal == refusal && e.place == 0 && e.count == (refusal == 0 ? after : 0), "entering: refusal or count");
    for (size_t i = 0; i < length; i++) {
        int moved = refusal == 0 && i > place && i < after, here = refusal == 0 && i == place && i < after;
        int64_t wanted = here ? slack : 10 * (int64_t)(moved ? i : i + 1);
        expect(list[i].slack == wanted && list[i].serial == (here ? 6u : 7u), "entering: the list");
    }
    free(list);
}

static void enterings(void)
{
    entering(4, 4, 25, 0, 2);
    entering(4, 2, 25, 0, 2);
    entering(4, 3, 5, 0, 0);
    entering(4, 4, 99, 0, 4);
    entering(0, 0, 1, 0, 0);
    entering(4, 5, 25, 16, 0);
    entering(0, 1, 25, 16, 0);
    entering(4, SIZE_MAX, 25, 16, 0);
}

int main(void)
{
    layout();
    table_rooms();
    askings();
    tables();
    lines();
    enterings();
    printf("%d passed, %d failed\n", passed, failed);
    return failed != 0;
}
