/* Reads texts on standard input through the library's C interface, asks, and prints what `toppaths` prints: so the calls can be counted by themselves.
 *
 *     call            one text: all of standard input
 *     call --many     any number of texts, before each a line with how many bytes it has
 */
#include <stdio.h>
#include <string.h>

#include "chthonyra.h"

static uint8_t text[CHTHONYRA_TEXT + 1];
static uint32_t table[CHTHONYRA_TABLE];
static int64_t room[CHTHONYRA_ROOM];
static uint64_t work[CHTHONYRA_WORK];

static void refused(uint32_t number, size_t place)
{
    printf("refused\t%u\t%zu\n", number, place);
}

static void print_row(size_t rank, const int64_t *row)
{
    int64_t end = CHTHONYRA_ROW_FIRST_ARC + row[CHTHONYRA_ROW_ARCS];
    printf("path\t%zu", rank);
    for (int64_t i = 0; i < end; i++)
        if (i != CHTHONYRA_ROW_ARCS)
            printf("\t%lld", (long long)row[i]);
    printf("\n");
}

/* The text of so many bytes: read, asked and printed. */
static void answer(size_t length)
{
    struct chthonyra_reading reading = chthonyra_read(text, length, table, CHTHONYRA_TABLE);
    if (reading.refusal != 0) {
        refused(reading.refusal, reading.place);
        return;
    }
    struct chthonyra_answer answer = chthonyra_ask(table, reading.length, reading.mode, reading.k, room, CHTHONYRA_ROOM, work, CHTHONYRA_WORK);
    if (answer.refusal != 0) {
        refused(answer.refusal, answer.place);
        return;
    }
    for (size_t i = 0; i < answer.rows; i++)
        print_row(i + 1, room + i * CHTHONYRA_ROW(table[0]));
    printf("end\t%zu\t%llu\n", answer.rows, (unsigned long long)answer.total);
}

/* The next text behind a line with its length; 0 at the end of the input. */
static int next_text(size_t *length)
{
    return scanf("%zu", length) == 1 && getchar() == '\n' && *length <= sizeof text && fread(text, 1, *length, stdin) == *length;
}

int main(int count, char **words)
{
    size_t length;
    if (count == 2 && strcmp(words[1], "--many") == 0)
        while (next_text(&length))
            answer(length);
    else
        answer(fread(text, 1, sizeof text, stdin));
    return 0;
}
