/*
 * worst: prints the worst paths of a design, like the program `toppaths`, over the library's C interface.
 *
 *     worst [FILE]        without FILE it reads standard input
 *
 * For each row it prints `path`, rank, slack, credit, test, start and arcs, then `end`, rows and total, with tabs between; or one line `refused`, number,
 * place. When the text itself is refused at a line, that line is shown on standard error. Exit status 0 for an answer, 1 for a refusal, 2 for a file
 * that cannot be read.
 */
#include <inttypes.h>
#include <stdio.h>

#include "chthonyra.h"

/* One byte more than a text may have, so that a longer one is seen to be too long. */
static uint8_t text[CHTHONYRA_TEXT + 1];
static uint32_t table[CHTHONYRA_TABLE];
static int64_t room[CHTHONYRA_ROOM];
static uint64_t work[CHTHONYRA_WORK];

static int refused(uint32_t number, size_t place)
{
    printf("refused\t%" PRIu32 "\t%zu\n", number, place);
    return 1;
}

/* Shows the line that a refusal 2, 3 or 4 names; bytes that are no printable ASCII as a dot. */
static void show_line(size_t length, size_t n)
{
    struct chthonyra_part line = chthonyra_line(text, length, n);
    fprintf(stderr, "line %zu: ", n);
    for (size_t i = 0; i < line.length; i++) {
        uint8_t byte = text[line.start + i];
        fputc(byte == '\t' || (byte >= 32 && byte < 127) ? byte : '.', stderr);
    }
    fputc('\n', stderr);
}

static void print_row(size_t rank, const int64_t *row)
{
    printf("path\t%zu\t%" PRId64 "\t%" PRId64 "\t%" PRId64 "\t%" PRId64, rank, row[CHTHONYRA_ROW_SLACK], row[CHTHONYRA_ROW_CREDIT],
           row[CHTHONYRA_ROW_TEST], row[CHTHONYRA_ROW_START]);
    for (int64_t i = 0; i < row[CHTHONYRA_ROW_ARCS]; i++)
        printf("\t%" PRId64, row[CHTHONYRA_ROW_FIRST_ARC + i]);
    putchar('\n');
}

static int report(size_t length)
{
    struct chthonyra_reading reading = chthonyra_read(text, length, table, CHTHONYRA_TABLE);
    if (reading.refusal != 0) {
        if (reading.place != 0)
            show_line(length, reading.place);
        return refused(reading.refusal, reading.place);
    }
    struct chthonyra_answer answer =
        chthonyra_ask(table, reading.length, reading.mode, reading.k, room, CHTHONYRA_ROOM, work, CHTHONYRA_WORK);
    if (answer.refusal != 0)
        return refused(answer.refusal, answer.place);
    for (size_t i = 0; i < answer.rows; i++)
        print_row(i + 1, room + i * CHTHONYRA_ROW(table[0]));
    printf("end\t%zu\t%" PRIu64 "\n", answer.rows, answer.total);
    return 0;
}

int main(int count, char **words)
{
    FILE *file = count > 1 ? fopen(words[1], "rb") : stdin;
    if (file == NULL) {
        perror(words[1]);
        return 2;
    }
    size_t length = fread(text, 1, sizeof text, file);
    if (ferror(file)) {
        perror("worst");
        return 2;
    }
    return report(length);
}
