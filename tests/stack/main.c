/*
 * Measures the stack that each call of include/chronicle.h uses, and fails where one uses more than CHRONICLE_STACK.
 *
 * Each call is made in a thread of its own, whose stack is painted before: what is no longer painted afterwards was
 * used. What a thread uses for itself is measured by one that makes no call, and taken off. The calls are made where
 * they reach deepest: on charts that nest all 32 entries, by operators of every form, with marks that go over the ends
 * of all delays; an addition also where it is taken, 30 lines behind two; a mark also where it puts as many rows of one
 * entry in order as a table holds, the starts of which rise and fall; and a report also of a full table.
 */
#define _POSIX_C_SOURCE 200809L
#include "chronicle.h"

#include <pthread.h>
#include <stdio.h>
#include <stdlib.h>
#include <string.h>

enum {
    PAINTED = 1 << 20,
    PAINT = 0xa5,
    ROWS = 3000,
    NUMBERS = 5 * ROWS,
    OUTPUT = CHRONICLE_LISTING_BYTES(ROWS),
    TREE = 4000,
    ENTRIES = 32,
    JUMP = 40,
    BLOCK_STARTS = 270,
    BLOCK_ENDS = 60,
    BLOCK_EVENTS = 3,
    BLOCK_PAIRS = BLOCK_STARTS * BLOCK_ENDS,
    BLOCK_ROWS = 65535,
    MOST_PENDING = 64
};

/* What the calls are made on; the answers go here too, so that no answer takes room on the painted stack. */
static struct subject {
    uint8_t text[ENTRIES * 64 + 4096];
    size_t text_length;
    size_t events_length;
    size_t chart_length;
    struct chronicle_chart chart;
    struct chronicle_watch watch;
    struct chronicle_chart events;
    struct chronicle_watch events_watch;
    int32_t table[NUMBERS];
    uint8_t out[OUTPUT];
    struct chronicle_verdict verdict;
    struct chronicle_chart_answer read;
    struct chronicle_answer answer;
    struct chronicle_addition addition;
    struct chronicle_addition refused;
    struct chronicle_rows rows;
    struct chronicle_tree_answer tree;
    struct chronicle_report_answer report;
    struct chronicle_tenths instant;
    struct chronicle_tenths length;
    size_t written;
    size_t listed;
    size_t printed;
    size_t fitting;
    uint32_t refusal;
} s;

/* The widest spellings that there are. */
static const uint8_t widest_instant[] = {'-', '9', '9', '9', '9', '9', '9', '9', '9', '9', '.', '9'};
static const uint8_t widest_length[] = {'9', '9', '9', '9', '9', '9', '9', '9', '9', '.', '9'};

static void no_call(void) {}
static void read_instant(void) { s.instant = chronicle_read_instant(widest_instant, sizeof widest_instant); }
static void read_length(void) { s.length = chronicle_read_length(widest_length, sizeof widest_length); }
static void write_instant(void) { s.written = chronicle_write_instant(INT32_MIN, s.out, CHRONICLE_INSTANT_BYTES); }
static void check_chart(void) { s.verdict = chronicle_check_chart(s.text, s.chart_length); }
static void read_chart(void) { s.read = chronicle_read_chart(s.text, s.chart_length); }
static void rows_that_fit(void) { s.fitting = chronicle_rows_that_fit(NUMBERS); }
static void open_watch(void) { s.answer = chronicle_open(s.chart, s.table, NUMBERS, 0); }
static void event(void) { s.answer = chronicle_event(s.watch, s.chart, s.table, NUMBERS, 1); }
static void mark(void) { s.answer = chronicle_clock(s.watch, s.chart, s.table, NUMBERS, s.watch.instant + JUMP); }
static void forget(void) { s.answer = chronicle_forget(s.watch, s.chart, s.table, NUMBERS, s.watch.instant - 1); }
static void check(void) { s.refusal = chronicle_check(s.watch, s.chart, s.table, NUMBERS); }
static void rows_ending(void) { s.rows = chronicle_rows_ending(s.watch, s.chart, s.table, NUMBERS, 0); }
static void tree(void) { s.tree = chronicle_tree(s.watch, s.chart, s.table, NUMBERS, s.watch.rows - 1, s.out, TREE); }
static void add_lines(void)
{
    s.addition = chronicle_add_lines(s.events_watch, s.events, s.table, 0, s.text + s.events_length,
                                     s.chart_length - s.events_length);
}
static void add_33rd(void)
{
    s.refused = chronicle_add_lines(s.watch, s.chart, s.table, NUMBERS, s.text, s.chart_length);
}
static void report(void) { s.report = chronicle_report(s.watch, s.chart, s.table, NUMBERS); }
static void list(void) { s.listed = chronicle_list(s.text, s.text_length, s.table, NUMBERS, s.out, OUTPUT); }
static void print_report(void)
{
    s.printed = chronicle_print_report(s.text, s.text_length, s.table, NUMBERS, s.out, CHRONICLE_REPORT_BYTES);
}

/* The table that holds a long block. */
static int32_t block_table[5 * BLOCK_ROWS];
static void mark_block(void)
{
    s.answer = chronicle_clock(s.watch, s.chart, block_table, 5 * BLOCK_ROWS, s.watch.instant + 1);
}
static void report_full(void) { s.report = chronicle_report(s.watch, s.chart, block_table, 5 * BLOCK_ROWS); }

static void fail(const char *what)
{
    fprintf(stderr, "stack: %s\n", what);
    exit(1);
}

static void *run(void *call)
{
    (*(void (**)(void))call)();
    return NULL;
}

/* How many bytes of a painted stack a thread uses that makes this call. */
static size_t used_by(void (*call)(void))
{
    static _Alignas(4096) uint8_t stack[PAINTED];
    memset(stack, PAINT, PAINTED);
    pthread_attr_t attributes;
    pthread_t thread;
    if (pthread_attr_init(&attributes) != 0 || pthread_attr_setstack(&attributes, stack, PAINTED) != 0 ||
        pthread_create(&thread, &attributes, run, &call) != 0 || pthread_join(thread, NULL) != 0)
        fail("no thread");
    pthread_attr_destroy(&attributes);
    size_t unused = 0;
    while (unused < PAINTED && stack[unused] == PAINT)
        unused++;
    return PAINTED - unused;
}

static void add_line(const char *line)
{
    size_t n = strlen(line);
    if (s.text_length + n > sizeof s.text)
        fail("the text is too long");
    memcpy(s.text + s.text_length, line, n);
    s.text_length += n;
}

/* Two events, and behind them entries of one operator, each over the one before it; a log of as many events. */
static void write_input(const char *word, const char *second)
{
    char line[64];
    s.text_length = 0;
    add_line("0\tevent\t1\n1\tevent\t2\n");
    s.events_length = s.text_length;
    for (int i = 2; i < ENTRIES; i++) {
        snprintf(line, sizeof line, "%d\t%s\t%d\t%s\n", i, word, i == 2 ? 0 : i - 1, second);
        add_line(line);
    }
    s.chart_length = s.text_length;
    add_line("\nopen\t0\nevent\t1\nevent\t1\nclock\t0.1\nforget\t0\nevent\t1\nclock\t4.0\n");
}

/* Opens a watch under the two events alone, and one under the chart, on which an event of code 1 is played at each
 * instant until so many rows are in use. */
static void fill(size_t rows)
{
    s.events = chronicle_read_chart(s.text, s.events_length).chart;
    s.events_watch = chronicle_open(s.events, s.table, 0, 0).watch;
    s.read = chronicle_read_chart(s.text, s.chart_length);
    s.chart = s.read.chart;
    s.answer = chronicle_open(s.chart, s.table, NUMBERS, 0);
    while (s.answer.refusal == 0 && s.answer.watch.rows < rows) {
        s.answer = chronicle_event(s.answer.watch, s.chart, s.table, NUMBERS, 1);
        if (s.answer.refusal == 0)
            s.answer = chronicle_clock(s.answer.watch, s.chart, s.table, NUMBERS, s.answer.watch.instant + 1);
    }
    if (s.read.refusal != 0 || s.answer.refusal != 0)
        fail("the table could not be filled");
    s.watch = s.answer.watch;
}

static struct call {
    const char *name;
    void (*make)(void);
    size_t most;
} calls[] = {
    {"chronicle_check_chart", check_chart, 0},     {"chronicle_read_chart", read_chart, 0},
    {"chronicle_check", check, 0},                 {"chronicle_rows_ending", rows_ending, 0},
    {"chronicle_tree", tree, 0},                   {"chronicle_report", report, 0},
    {"chronicle_add_lines", add_lines, 0},         {"chronicle_add_lines, 2", add_33rd, 0},
    {"chronicle_event", event, 0},                 {"chronicle_clock", mark, 0},
    {"chronicle_forget", forget, 0},               {"chronicle_open", open_watch, 0},
    {"chronicle_list", list, 0},                   {"chronicle_print_report", print_report, 0},
    {"chronicle_rows_that_fit", rows_that_fit, 0}, {"chronicle_read_instant", read_instant, 0},
    {"chronicle_read_length", read_length, 0},     {"chronicle_write_instant", write_instant, 0},
};

/* Makes every call on the chart and the rows there are, in an order in which each finds what it needs. */
static void measure(size_t of_thread)
{
    for (size_t i = 0; i < sizeof calls / sizeof *calls; i++) {
        size_t used = used_by(calls[i].make) - of_thread;
        if (used > calls[i].most)
            calls[i].most = used;
        if (calls[i].make == event || calls[i].make == mark)
            s.watch = s.answer.watch;
        if (s.answer.refusal != 0)
            fail("a call that alters the watch was refused");
    }
    if (s.verdict.refusal != 0 || s.refusal != 0 || s.tree.refusal != 0 || s.tree.length == 0 || s.listed == 0 ||
        s.fitting != ROWS || s.report.refusal != 0 || s.report.rows == 0 || s.printed == 0)
        fail("a call was refused");
    if (s.instant.tenths != -9999999999 || s.length.tenths != 9999999999 || s.written != CHRONICLE_INSTANT_BYTES)
        fail("an instant or a length went another way than planned");
    if (s.addition.refusal != 0 || s.addition.chart.count != ENTRIES || s.refused.refusal != 2 || s.refused.line != 1)
        fail("an addition went another way than planned");
}

/* Plays so many events of a code, and the mark that closes their instant. */
static void play(uint8_t code, int times)
{
    for (int i = 0; i < times && s.answer.refusal == 0; i++)
        s.answer = chronicle_event(s.answer.watch, s.chart, block_table, 5 * BLOCK_ROWS, code);
    if (s.answer.refusal == 0)
        s.answer = chronicle_clock(s.answer.watch, s.chart, block_table, 5 * BLOCK_ROWS, s.answer.watch.instant + 1);
}

/* Exchanges the pairs, rows of one entry and one end that no row refers to, so that their starts rise and fall. */
static void exchange_pairs(int32_t *pairs)
{
    uint32_t state = 1;
    for (size_t i = BLOCK_PAIRS; i > 1; i--) {
        state = state * 1664525u + 1013904223u;
        size_t j = (state >> 8) % i;
        int32_t row[5];
        memcpy(row, pairs + 5 * j, sizeof row);
        memcpy(pairs + 5 * j, pairs + 5 * (i - 1), sizeof row);
        memcpy(pairs + 5 * (i - 1), row, sizeof row);
    }
}

/* What a mark uses that puts BLOCK_PAIRS times BLOCK_EVENTS rows of one entry in order. */
static size_t used_by_block(void)
{
    s.text_length = 0;
    add_line("0\tevent\t1\n1\tevent\t2\n2\tevent\t3\n3\tseq\t0\t1\n4\tseq\t3\t2\n");
    s.chart = chronicle_read_chart(s.text, s.text_length).chart;
    s.answer = chronicle_open(s.chart, block_table, 5 * BLOCK_ROWS, 0);
    for (int i = 0; i < BLOCK_STARTS; i++)
        play(1, 1);
    play(2, BLOCK_ENDS);
    exchange_pairs(block_table + 5 * (BLOCK_STARTS + BLOCK_ENDS));
    for (int i = 0; i < BLOCK_EVENTS && s.answer.refusal == 0; i++)
        s.answer = chronicle_event(s.answer.watch, s.chart, block_table, 5 * BLOCK_ROWS, 3);
    s.watch = s.answer.watch;
    size_t used = used_by(mark_block);
    if (s.answer.refusal != 0 || s.answer.watch.rows != s.watch.rows + BLOCK_EVENTS * (BLOCK_PAIRS + 1))
        fail("the block could not be made");
    return used;
}

/* A mark with a long block must not use more than one with a short one may. */
static int measure_block(size_t of_thread)
{
    size_t used = used_by_block() - of_thread;
    printf("chronicle_clock, a block of %d rows: %zu bytes of stack\n", BLOCK_EVENTS * BLOCK_PAIRS, used);
    return used <= 5120;
}

/* What a report of a full table uses: the block's, filled up by events of code 1, which make no other row. */
static size_t used_by_full_table(void)
{
    while (s.answer.refusal == 0 && s.answer.watch.rows < BLOCK_ROWS) {
        size_t left = BLOCK_ROWS - s.answer.watch.rows;
        play(1, left < MOST_PENDING ? (int)left : MOST_PENDING);
    }
    s.watch = s.answer.watch;
    size_t used = used_by(report_full);
    if (s.report.refusal != 0 || s.report.rows != BLOCK_ROWS)
        fail("the full table could not be reported");
    return used;
}

static int measure_full_table(size_t of_thread)
{
    size_t used = used_by_full_table() - of_thread;
    printf("chronicle_report, a full table of %d rows: %zu bytes of stack\n", BLOCK_ROWS, used);
    return used <= CHRONICLE_STACK;
}

int main(void)
{
    static const struct {
        const char *word, *second;
    } charts[] = {{"lasts", "0"}, {"-[]", "1"},   {"equals", "0"},  {"or", "1"},  {"and", "1"},
                  {"seq", "1"},   {"after", "0"}, {"after", "0.1"}, {"cut", "0"}, {"change", "0"}};
    static const size_t rows[] = {1, 2000};
    used_by(no_call);
    size_t of_thread = used_by(no_call);
    for (size_t i = 0; i < sizeof charts / sizeof *charts; i++)
        for (size_t j = 0; j < sizeof rows / sizeof *rows; j++) {
            write_input(charts[i].word, charts[i].second);
            fill(rows[j]);
            measure(of_thread);
        }
    int is_enough = 1;
    for (size_t i = 0; i < sizeof calls / sizeof *calls; i++) {
        printf("%-23s %6zu bytes of stack\n", calls[i].name, calls[i].most);
        is_enough &= calls[i].most <= CHRONICLE_STACK;
    }
    is_enough &= measure_block(of_thread);
    is_enough &= measure_full_table(of_thread);
    printf("a thread itself: %zu; the header says: %d\n", of_thread, CHRONICLE_STACK);
    return is_enough ? 0 : 1;
}
