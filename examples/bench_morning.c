/*
 * Runs a watch over a chart and a log, as an acquisition program would. Use: bench_morning CHART LOG
 *
 * Prints every recognition of the chart's last entry, as a tree, as soon as the instant that it ends at is closed, the
 * shortest of an instant first, and the table at the end. Chart, log and output have milliseconds, with a point and one
 * digit for tenths; the calls take and give tenths. To build it and run it on a morning at the bench:
 *     tools/build host
 *     gcc -std=c11 -Iinclude examples/bench_morning.c target/staticlib/libhost.a -o target/bench_morning
 *     target/bench_morning examples/morning.chart examples/morning.log
 *
 * The morning's codes are 1 stage settled, 2 shutter opened, 3 focus moved, 4 shutter closed and 9 lamp triggered. Its
 * chart has the events 1 to 4 as entries 0 to 3, then
 *     4  the stage settled and later the shutter opened
 *     5  the same with no focus move between, its edges included
 *     6  the same within two seconds
 *     7  an exposure: the shutter opened and later closed
 *     8  the same within half a second
 *     9  a good frame: the settling of 6, then the exposure of 8
 * The log begins 90 seconds before the lamp trigger, at negative instants. What began before the trigger is forgotten
 * after the first frame, which was taken too long after the stage had settled.
 */
#include "chronicle.h"

#include <errno.h>
#include <inttypes.h>
#include <stdio.h>
#include <string.h>

enum { DONE = 0, REFUSED = 1, FAILED = 2 };

enum {
    ROWS = 500,
    NUMBERS = 5 * ROWS,
    /* A chart has at most 32 lines of at most 64 bytes; of a longer text so much is enough to be refused. */
    CHART_BYTES = 32 * 64 + 1,
    LINE_BYTES = 64,
    TREE_BYTES = 200
};

/* The bench's watch with all that its calls take. */
struct bench {
    struct chronicle_chart chart;
    struct chronicle_watch watch;
    int32_t table[NUMBERS];
};

/* A line of the log: an event with its code, any other word with an instant, in tenths of a millisecond. */
struct record {
    char word[8];
    int64_t number;
};

/* Reads a code, 1 to 10 digits with no leading zero. Returns 0 where it is anything else. */
static int read_code(const char *digits, int64_t *code)
{
    size_t length = strspn(digits, "0123456789");
    if (length < 1 || length > 10 || digits[length] != '\0' || (*digits == '0' && length > 1))
        return 0;
    *code = 0;
    for (; *digits != '\0'; digits++)
        *code = *code * 10 + (*digits - '0');
    return 1;
}

/* Reads an instant in milliseconds as its number of tenths. Returns 0 where it is anything else. */
static int read_instant(const char *text, int64_t *tenths)
{
    struct chronicle_tenths read = chronicle_read_instant((const uint8_t *)text, strlen(text));
    *tenths = read.tenths;
    return read.well_formed != 0;
}

/* Reads a word, a tab, a code or an instant, and the end of the line. Returns 0 where the line is anything else. */
static int read_record(char *line, struct record *record)
{
    char *end = strchr(line, '\n');
    char *tab = strchr(line, '\t');
    if (end == NULL || tab == NULL || (size_t)(tab - line) >= sizeof record->word)
        return 0;
    *end = '\0';
    *tab = '\0';
    strcpy(record->word, line);
    return strcmp(line, "event") == 0 ? read_code(tab + 1, &record->number) : read_instant(tab + 1, &record->number);
}

/* An instant of nine digits may have more tenths than 32 bits hold: the ends of their range are refused like it. */
static int32_t instant_of(int64_t tenths)
{
    if (tenths < INT32_MIN)
        return INT32_MIN;
    return tenths > INT32_MAX ? INT32_MAX : (int32_t)tenths;
}

/* Prints an instant in milliseconds, as listings have it. */
static void print_instant(int32_t tenths)
{
    uint8_t text[CHRONICLE_INSTANT_BYTES];
    size_t length = chronicle_write_instant(tenths, text, sizeof text);
    printf("%.*s", (int)length, (char *)text);
}

/* Prints the recognitions of the last entry among the rows with this end. Returns 0 where printing fails. */
static int print_found(const struct bench *bench, int32_t end)
{
    struct chronicle_rows rows = chronicle_rows_ending(bench->watch, bench->chart, bench->table, NUMBERS, end);
    for (size_t row = rows.first; row < rows.first + rows.count; row++) {
        uint8_t tree[TREE_BYTES];
        if ((size_t)bench->table[5 * row] != bench->chart.count - 1)
            continue;
        struct chronicle_tree_answer written =
            chronicle_tree(bench->watch, bench->chart, bench->table, NUMBERS, row, tree, TREE_BYTES);
        fputs("found\t", stdout);
        print_instant(end);
        /* Refused with 16, a tree has length 0 and nothing is printed of it. */
        if (printf("\t%.*s\n", (int)written.length, (char *)tree) < 0)
            return 0;
    }
    return 1;
}

/* Plays a line of the log, the first being an opening. Returns the refusal's number, 0 for none. */
static uint32_t play(struct bench *bench, const struct record *record, int is_first)
{
    int32_t instant = instant_of(record->number);
    struct chronicle_answer answer;
    if (is_first != (strcmp(record->word, "open") == 0))
        return 7;
    if (is_first)
        answer = chronicle_open(bench->chart, bench->table, NUMBERS, instant);
    else if (strcmp(record->word, "event") == 0 && record->number <= 255)
        answer = chronicle_event(bench->watch, bench->chart, bench->table, NUMBERS, (uint8_t)record->number);
    else if (strcmp(record->word, "clock") == 0)
        answer = chronicle_clock(bench->watch, bench->chart, bench->table, NUMBERS, instant);
    else if (strcmp(record->word, "forget") == 0)
        answer = chronicle_forget(bench->watch, bench->chart, bench->table, NUMBERS, instant);
    else
        return 7;
    bench->watch = answer.watch;
    return answer.refusal;
}

/* Plays a log up to its end or to the first line that is refused. */
static int play_log(struct bench *bench, FILE *log)
{
    /* One byte more than a line may have, and the byte 0 behind it. */
    char line[LINE_BYTES + 2];
    for (unsigned long number = 1; fgets(line, sizeof line, log) != NULL; number++) {
        struct record record;
        int32_t before = bench->watch.instant;
        uint32_t refusal = read_record(line, &record) ? play(bench, &record, number == 1) : 7;
        if (refusal != 0) {
            printf("refused\t%" PRIu32 "\t%lu\n", refusal, number);
            return REFUSED;
        }
        if (strcmp(record.word, "clock") == 0 && !print_found(bench, before))
            return FAILED;
    }
    return ferror(log) ? FAILED : DONE;
}

static void print_table(const struct bench *bench)
{
    printf("row\tentry\tleft\tright\tstart\tend\n");
    for (size_t row = 0; row < bench->watch.rows; row++) {
        const int32_t *numbers = bench->table + 5 * row;
        printf("%zu\t%" PRId32 "\t%" PRId32 "\t%" PRId32 "\t", row, numbers[0], numbers[1], numbers[2]);
        print_instant(numbers[3]);
        putchar('\t');
        print_instant(numbers[4]);
        putchar('\n');
    }
}

/* Reads the bench's chart. */
static int read_chart(struct bench *bench, FILE *stream)
{
    uint8_t text[CHART_BYTES];
    size_t length = fread(text, 1, sizeof text, stream);
    if (ferror(stream))
        return FAILED;
    struct chronicle_chart_answer answer = chronicle_read_chart(text, length);
    bench->chart = answer.chart;
    if (answer.refusal == 0)
        return DONE;
    printf("chart refused\t%" PRIu32 "\t%" PRIu32 "\n", answer.refusal, answer.line);
    return REFUSED;
}

/* Opens a file and has it read. */
static int with_file(const char *name, struct bench *bench, int (*read)(struct bench *, FILE *))
{
    FILE *stream = fopen(name, "rb");
    int status = stream == NULL ? FAILED : read(bench, stream);
    if (status == FAILED)
        fprintf(stderr, "bench_morning: %s: %s\n", name, strerror(errno));
    if (stream != NULL)
        fclose(stream);
    return status;
}

int main(int argc, char **argv)
{
    static struct bench bench;
    if (argc != 3) {
        fputs("use: bench_morning CHART LOG\n", stderr);
        return FAILED;
    }
    int status = with_file(argv[1], &bench, read_chart);
    if (status == DONE)
        status = with_file(argv[2], &bench, play_log);
    if (status == DONE)
        print_table(&bench);
    return fflush(stdout) == 0 && !ferror(stdout) ? status : FAILED;
}
