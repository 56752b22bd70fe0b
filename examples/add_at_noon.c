/*
 * Adds a pattern to the chart of a running watch and keeps the morning's rows. Use: add_at_noon
 *
 * Prints what each addition answers, a refused one first, and the table at the end. Chart and log stand in the program;
 * examples/bench_morning.c reads them from files. To build it and run it:
 *     tools/build host
 *     gcc -std=c11 -Iinclude examples/add_at_noon.c target/staticlib/libhost.a -o target/add_at_noon
 *     target/add_at_noon
 *
 * Codes: 1 stage settled, 2 shutter opened, 4 focus moved. Noon is the instant 60000, in milliseconds; the calls take
 * and give tenths of a millisecond. The morning's chart has
 *     0  the stage settled
 *     1  the shutter opened
 *     2  the stage settled and later the shutter opened
 * and at noon these are added:
 *     3  the focus moved
 *     4  the stage settled, and the first opening after it
 *     5  the same with no focus move between, its edges included
 * docs/adding-entries.md goes through the rows that are printed.
 */
#include "chronicle.h"

#include <inttypes.h>
#include <stdio.h>
#include <string.h>

enum { DONE = 0, REFUSED = 1, FAILED = 2 };

/* MS is a millisecond in the unit of the calls. */
enum { ROWS = 100, NUMBERS = 5 * ROWS, MS = 10, MORNING = 0, NOON = 60000 * MS };

static const char morning_chart[] = "0\tevent\t1\n"
                                    "1\tevent\t2\n"
                                    "2\tseq\t0\t1\n";

/* The third line names an entry 6, which is not there. */
static const char mistaken_lines[] = "3\tevent\t4\n"
                                     "4\tcut\t0\t1\n"
                                     "5\t-[]\t4\t6\n";

static const char noon_lines[] = "3\tevent\t4\n"
                                 "4\tcut\t0\t1\n"
                                 "5\t-[]\t4\t3\n";

/* An event's code, or the instant of a clock mark, in tenths of a millisecond. */
struct step {
    enum { EVENT, CLOCK } call;
    int32_t number;
};

/* The last event happens at noon. */
static const struct step morning[] = {{EVENT, 1},          {CLOCK, 800 * MS}, {EVENT, 2},
                                      {CLOCK, 50000 * MS}, {EVENT, 4},        {CLOCK, 59000 * MS},
                                      {EVENT, 1},          {CLOCK, NOON},     {EVENT, 1}};

static const struct step afternoon[] = {{CLOCK, 60700 * MS}, {EVENT, 2},          {CLOCK, 65000 * MS},
                                        {EVENT, 1},          {CLOCK, 65400 * MS}, {EVENT, 4},
                                        {CLOCK, 66000 * MS}, {EVENT, 2},          {CLOCK, 70000 * MS}};

/* The bench's watch with all that its calls take. An addition gives it another watch and another chart. */
struct bench {
    struct chronicle_chart chart;
    struct chronicle_watch watch;
    int32_t table[NUMBERS];
};

/* Takes over the watch of an answer, which is the one given where the call was refused. */
static int status_of(struct bench *bench, struct chronicle_answer answer)
{
    bench->watch = answer.watch;
    if (answer.refusal == 0)
        return DONE;
    printf("refused\t%" PRIu32 "\n", answer.refusal);
    return REFUSED;
}

static int open_watch(struct bench *bench)
{
    struct chronicle_chart_answer read =
        chronicle_read_chart((const uint8_t *)morning_chart, sizeof morning_chart - 1);
    bench->chart = read.chart;
    if (read.refusal == 0)
        return status_of(bench, chronicle_open(bench->chart, bench->table, NUMBERS, MORNING));
    printf("chart refused\t%" PRIu32 "\t%" PRIu32 "\n", read.refusal, read.line);
    return REFUSED;
}

/* Plays steps up to the first that is refused. */
static int play(struct bench *bench, const struct step *steps, size_t count)
{
    int status = DONE;
    for (size_t i = 0; i < count && status == DONE; i++) {
        int32_t number = steps[i].number;
        if (steps[i].call == EVENT)
            status = status_of(
                bench, chronicle_event(bench->watch, bench->chart, bench->table, NUMBERS, (uint8_t)number));
        else
            status = status_of(bench, chronicle_clock(bench->watch, bench->chart, bench->table, NUMBERS, number));
    }
    return status;
}

/*
 * Adds lines to the chart. Every later call gets the watch and the chart of the answer, both of them; where the
 * addition is refused, these are the old ones.
 */
static int add(struct bench *bench, const char *lines)
{
    struct chronicle_addition answer = chronicle_add_lines(bench->watch, bench->chart, bench->table, NUMBERS,
                                                           (const uint8_t *)lines, strlen(lines));
    bench->watch = answer.watch;
    bench->chart = answer.chart;
    if (answer.refusal == 0) {
        printf("addition taken\t%zu entries\t%zu rows\n", bench->chart.count, bench->watch.rows);
        return DONE;
    }
    printf("addition refused\t%" PRIu32 "\t%" PRIu32 "\n", answer.refusal, answer.line);
    return REFUSED;
}

/* Prints an instant in milliseconds, as listings have it. */
static void print_instant(int32_t tenths)
{
    uint8_t text[CHRONICLE_INSTANT_BYTES];
    size_t length = chronicle_write_instant(tenths, text, sizeof text);
    printf("%.*s", (int)length, (char *)text);
}

static void print_table(const struct bench *bench)
{
    printf("row\tentry\tleft\tright\tstart\tend\n");
    for (size_t row = 0; row < bench->watch.rows; row++) {
        const int32_t *numbers = bench->table + 5 * row;
        printf("%zu\t%" PRId32 "\t%" PRId32 "\t%" PRId32 "\t", row, numbers[0], numbers[1], numbers[2]);
        print_instant(numbers[3]);
        putchar('\t');
        print_instant(numbers[4]);
        putchar('\n');
    }
}

int main(void)
{
    static struct bench bench;
    int status = open_watch(&bench);
    if (status == DONE)
        status = play(&bench, morning, sizeof morning / sizeof *morning);
    /* The first addition is refused and alters nothing: the watch goes on, and the corrected lines are added. */
    if (status == DONE && add(&bench, mistaken_lines) == REFUSED)
        status = add(&bench, noon_lines);
    if (status == DONE)
        status = play(&bench, afternoon, sizeof afternoon / sizeof *afternoon);
    if (status == DONE)
        print_table(&bench);
    return fflush(stdout) == 0 && !ferror(stdout) ? status : FAILED;
}
