/*
 * chronicle.h: checking charts and running a chronicle watch from C.
 *
 * A chart says which patterns of timed events a watch looks for. A watch takes
 * the events as they come and keeps every recognition of every pattern as a row
 * of a table that the caller lends it. All of this is proved: each call answers,
 * and leaves in lent memory, what this page says, for every input. Times and
 * stack sizes are no part of the proof.
 *
 * Every call is in one archive, for x86-64 Linux:
 *
 *     tools/build host
 *     gcc -Iinclude program.c target/staticlib/libhost.a
 *
 * chronicle_check_chart says whether a chart is sound. A program that runs a
 * watch calls chronicle_read_chart, which says the same and gives the chart.
 *
 *
 * TENTHS OF A MILLISECOND
 *
 * In every call, struct and table an instant or a length is a whole number of
 * tenths of a millisecond. Instants count from the lamp trigger: -20 is 2 ms
 * before it.
 *
 *     instant  -1000000000 to 1000000000; on paper -100000000.0 to 100000000.0
 *     length   0 to 2000000000; on paper 0.0 to 200000000.0
 *
 * A program written for the header of before, when the unit was a millisecond,
 * must multiply every instant and length that it hands over by 10, and take
 * those that it gets as tenths. No type, no name and no size of a struct tells
 * it so: it compiles and links unaltered, and its times then mean a tenth of
 * what they did. chronicle_open(..., -2) of before is chronicle_open(..., -20)
 * now. It must also lend chronicle_list a longer output: see
 * CHRONICLE_LISTING_BYTES. A watch and a table that were stored before are in
 * milliseconds: instant, floor and since of the watch and every start and end
 * of the table are to be multiplied by 10, all but a floor or since of
 * -1000000000, which stays as it is, and the chart is read anew from its text.
 * Where an instant leaves the range by this, a new watch is to be opened.
 *
 *
 * ON PAPER
 *
 * In charts, logs and listings instants and lengths are in milliseconds: 1 to 9
 * decimal digits, alone or followed by a point and one digit. Without a point
 * they are whole milliseconds: 5 and 5.0 are the same. What stands alone or
 * before the point begins with the digit 0 only where it is 0 itself. An
 * instant may carry a minus, never on the value zero; a length has no sign.
 *
 *     sound         0   0.0   5   5.0   0.5   -0.5   -100000000
 *     out of range  100000000.1   -999999999   (well formed all the same)
 *     malformed     -0   -0.0   .5   5.   5.25   05   00.5   1000000000   +5   5,0
 *
 * chronicle_read_instant and chronicle_read_length read one instant or length,
 * chronicle_write_instant writes one as listings have it, always with one digit
 * after the point:
 *
 *     struct chronicle_tenths at = chronicle_read_instant(bytes, size);
 *     uint8_t out[CHRONICLE_INSTANT_BYTES];
 *     size_t written = chronicle_write_instant(-20, out, sizeof out);
 *
 * (A program looks at at.well_formed, and compares at.tenths with the range
 * before it makes an int32_t of it. Here out begins with the 4 bytes -2.0.)
 *
 *
 * CHARTS
 *
 * The text of a chart has one entry a line, 1 to 32 lines. Fields are parted by
 * one tab (byte 9). Every line, the last one too, is ended by one byte 10 and
 * has at most 64 bytes with it. There are no comments, no empty lines, no
 * carriage returns (byte 13) and no byte-order mark. A line has three or four
 * fields:
 *
 *     number  event  code      number: the entry's own, from 0 upwards
 *     number  PAIR   a  b      a, b:   numbers of earlier entries
 *     number  LENGTH a  d      d:      a length, 0 to 200000000.0 milliseconds
 *     number  after  a  d      code:   an event's code, 0 to 255
 *
 *     PAIR is one of    seq or and -[] -][ -[[ -]]
 *                       meets overlaps starts during finishes equals
 *                       cut      a row of a, and the first of b after it
 *                       change   the same, with no other of a between
 *     LENGTH is one of  lasts    a lasts exactly d
 *                       atmost   d or less
 *                       atleast  d or more
 *     after             each row of a, and d has passed: it ends d later
 *
 * cut pairs each row r of a with each row s of b where r ends before s starts and
 * no other row of b starts after r ends and ends before s ends: the first by end,
 * and all of them where several end at once. change also asks that no row of a
 * starts no earlier than r and ends after r ends and before s starts. Rows that
 * forbid a pair in this way are rivals. All of them have ended when s has, and
 * none starts before r: no later event withdraws a pair, and a forget drops one
 * only where it drops r. a and b may be the same entry.
 *
 * A number has 1 to 10 decimal digits, no sign and no point; only 0 itself
 * begins with the digit 0. The length d is spelled as said above: 1 to 9 digits,
 * alone or followed by a point and one digit. The text is bytes: it needs no
 * byte 0 at its end, and a byte 0 in it is a byte like any other, which no line
 * of the form above has.
 *
 *     refusal  line  meaning
 *     0        0     the chart is taken
 *     1        1     no line: length is 0
 *     2        33    a 33rd line, whatever stands in it
 *     3        n     line n is not of the form above
 *     4        n     its entry number is not the next (0 in line 1, and so on)
 *     5        n     an operand is not lower than the entry's own number
 *     6        n     a code above 255, or a length above 2000000000 tenths,
 *                    which is 200000000.0 on paper
 *
 * Lines are counted from 1. The first line with a fault is the one reported.
 * In a line the checks come in the order 2, 3, 4, 6, 5, and the first that
 * fails gives the number.
 *
 *
 * A WATCH
 *
 * An instant is -1000000000 to 1000000000, in tenths of a millisecond from the
 * lamp trigger. A watch is always at one open instant. An event happens there
 * and gets the next serial, 1 for the first. A clock mark closes every instant
 * from the open one to the last before the mark, a tenth earlier than it, which
 * writes the rows that end at them, and opens the mark's own. The events belong
 * to the open instant; at the others only rows of after end, and rows made of
 * these. A forget raises the floor, which is -1000000000 tenths at first, and
 * drops every row that starts before it; no such row is made any more, also
 * where the wait of an after still runs.
 *
 * Events of the open instant are not in the table before it closes. A row of
 * after is there once a mark was later than its end. No mark is later than
 * 1000000000 tenths: a row that ends there or later is never written.
 *
 *     struct chronicle_chart_answer read = chronicle_read_chart(text, length);
 *     int32_t table[5 * 3000];
 *     struct chronicle_answer now = chronicle_open(read.chart, table, 5 * 3000, -20);
 *     now = chronicle_event(now.watch, read.chart, table, 5 * 3000, 1);
 *     now = chronicle_clock(now.watch, read.chart, table, 5 * 3000, 0);
 *
 * (A program looks at read.refusal and now.refusal after each of these. The
 * opening is at -2.0 ms.) examples/bench_morning.c is a whole program.
 *
 * Watch and chart are values. A call gets copies and hands the new watch back;
 * give it to the next call, with the same chart and the same table, of the same
 * length and as the last call left it. An addition (below) hands back a watch
 * and a chart: give both to the next call. A watch of before the addition does
 * not fit the new chart, nor the new watch the old chart: such a call is
 * refused with 13. Keeping an older watch, with its chart, is harmless, but it
 * no longer fits a table that a mark or a forget has altered: such a call is
 * most likely refused with 13.
 *
 *
 * ADDING ENTRIES
 *
 * Lines may be added to the chart of an open watch. Nothing is lost: no row is
 * altered, and the old entries go on as before.
 *
 *     struct chronicle_addition more =
 *         chronicle_add_lines(now.watch, read.chart, table, 5 * 3000, lines, size);
 *     if (more.refusal == 0)
 *         now = chronicle_event(more.watch, more.chart, table, 5 * 3000, 2);
 *
 * The lines have the form above and are numbered on from the chart's last entry:
 * to a chart of entries 0 to 2 the first line added is that of entry 3. Their
 * operands are any lower entries, old or added. Either all lines are taken or
 * none is. Lines may be added more than once, up to 32 entries in all.
 *
 * A watch holds for each entry the instant from which it counts. For the entries
 * of the opening it is -1000000000 tenths, for added ones the instant that was
 * open at the addition. A recognition becomes a row only if it starts no earlier
 * than its entry counts, and no earlier than the floor. So the events of the open
 * instant count for the new entries, whether they come before the addition or
 * after it, and what started before does not: not a pair of which a part did,
 * not a wait that was under way. No row of a new entry refers to a row that
 * started earlier, and none that did forbids one. A forget alters no entry's
 * instant; the later of this and the floor decides.
 *
 *     refusal  line  meaning
 *     0        0     taken: the new watch and the new chart
 *     14, 13   0     as of every call on a watch: see below
 *     1        1     no line: size is 0
 *     2        n     line n would be a 33rd entry, whatever stands in it
 *     3 to 6   n     as of a chart; 4: not numbered on from the last entry
 *
 * Lines are counted from 1, which is the first line added, whatever its entry's
 * number. The order is 14, 13, 1, then lines from the first, and in a line 2, 3,
 * 4, 6, 5. A refused addition hands back the watch and the chart given.
 * examples/add_at_noon.c is a whole program.
 *
 * An input of chronicle_list and chronicle_print_report, and of the listing and
 * report programs, has no line that adds entries: its chart is fixed for the
 * whole log.
 *
 *
 * THE TABLE
 *
 * The table is `length` numbers of the caller's, in any state before the
 * opening. It holds length / 5 rows, rounded down, and never more than 65535:
 * chronicle_rows_that_fit says how many. Row r is the five numbers from
 * table[5 * r] on:
 *
 *     entry  left  right  start  end
 *
 *     entry        the chart's entry that the row is a recognition of
 *     left, right  of an event: its serial and -1. Of two operands: their rows.
 *                  Of an absence, a length test or after: the row of a, and
 *                  -1. Of or: a row and -1, or -1 and a row. Rows referred to
 *                  are lower.
 *     start, end   instants, in tenths of a millisecond: the least start and
 *                  the greatest end of the rows referred to; an event's are
 *                  its instant; after ends d later
 *
 * Rows stand by end, then by entry, then by start, the later start first: the
 * shortest recognition of an instant is the first of its entry. Rows that start
 * alike stand by left and right; of or, the left arm comes first. A row not in
 * use is five zeros. Numbers after the last row that the table can hold are
 * never altered. Only chronicle_open, chronicle_clock and chronicle_forget
 * write to the table: an opening fills all rows with zeros, a mark writes new
 * rows behind those in use, a forget moves rows down, renumbers their
 * references and fills the freed rows with zeros. The caller may read rows at
 * any time and must not write to them.
 *
 *
 * REPORTS
 *
 * How many of the rows in use each entry has, as for a shift sheet:
 *
 *     struct chronicle_report_answer sheet =
 *         chronicle_report(now.watch, read.chart, table, 5 * 3000);
 *     for (size_t entry = 0; entry < sheet.entries; entry++)
 *         printf("%zu\t%zu\n", entry, sheet.tallies[entry]);
 *     printf("total\t%zu\n", sheet.rows);
 *
 * (A program looks at sheet.refusal first.) The tallies add up to sheet.rows,
 * which is also how many rows the listing of this table has. The report program
 * and chronicle_print_report print the same for an input with its chart and log.
 *
 *
 * REFUSALS
 *
 *     8   an opening instant out of range, which is -1000000000 to 1000000000
 *         tenths; a clock mark out of range or not after the open instant
 *     9   a 65th event in one instant
 *     10  an event after serial 1000000
 *     11  a forget below the floor, above the open instant or out of range
 *     12  table full: the rows in use and the new ones, of every instant that
 *         the mark closes, exceed the rows that the table can hold
 *     13  watch or table out of joint: no history leaves them so (see below)
 *     14  a chart of no entries, of over 32, or with an entry that breaks the
 *         operator table; never a chart that chronicle_read_chart or
 *         chronicle_add_lines has taken
 *     15  a row number not in use
 *     16  a tree longer than the output
 *
 *     call                   checks, the first that fails gives the number
 *     chronicle_open         14, 8
 *     chronicle_event        14, 13, 10, 9
 *     chronicle_clock        14, 13, 8, 12
 *     chronicle_forget       14, 13, 11
 *     chronicle_add_lines    14, 13, then 1 to 6 of its lines
 *     chronicle_check        14, 13
 *     chronicle_rows_ending  14, 13: no rows; chronicle_check says which it was
 *     chronicle_tree         14, 13, 15, 16
 *     chronicle_report       14, 13
 *
 * After a refusal all lent memory holds what it held before. A refused event,
 * mark, forget or addition returns the watch given, so the caller may go on:
 * after 12, forget and mark again. A refused opening returns an empty watch at
 * instant 0 with the floor at -1000000000 tenths and no entries: with a usable
 * chart, every call on it is refused with 13. A refused tree returns the length
 * 0, a refused report zeros besides the number.
 *
 * Out of joint is a watch or table with: the open instant or the floor out of
 * range, or the floor above the open instant; another number of entries than
 * the chart's; an entry that counts from an instant below -1000000000 tenths,
 * above the open instant or before that of the entry above it; over 64 pending
 * events, more of them than events counted, or over 1000000 events; more rows
 * than fit; a row not in use that is not all zeros; or a row in use whose entry
 * is not in the chart, whose start is below the floor or before the instant
 * from which its entry counts, whose end is not before the open instant or is
 * before the end of the row above it, whose references are not lower rows of
 * the operands, with -1 just where it belongs, whose start, end (of after: d
 * later than the row of a ends) or condition disagrees with them (an absence's
 * condition is not looked at; of cut and change it is only that r ends before s
 * starts, and a rival in the table is no fault), or an event's whose serial is
 * not 1 to the count or whose start is not its end.
 * It is found before anything is done: no call goes wrong on damaged memory.
 *
 *
 * MEMORY, THREADS, TIME
 *
 * All memory stays the caller's. A call touches only the `length` numbers or
 * bytes, of added lines the `size` bytes, behind a pointer that it is given,
 * keeps no pointer and allocates nothing; answers are values, and there is
 * nothing to free. No pointer may be NULL, not even where its length is 0: pass
 * any valid pointer then. A table must be aligned for int32_t, and an output
 * must not overlap the table.
 *
 * There is no state between calls. Any number of threads may make calls at
 * once; on one table they may only do so while none of them writes to it.
 *
 * No call makes a system call, sets errno, or runs on for ever. No call needs
 * more than CHRONICLE_STACK bytes of stack, whatever it is given. What a call
 * costs stands above it. "A check" there is one look at each entry of the chart
 * and at the instant from which it counts, and one walk of the table: constant
 * work for each row in use, and one look at every number of the other rows.
 */
#ifndef CHRONICLE_H
#define CHRONICLE_H

#include <stddef.h>
#include <stdint.h>

/* The stack that a thread needs for any call, what the thread itself needs aside; measured, with room to spare. */
#define CHRONICLE_STACK 8192

/* The bytes that chronicle_print_report asks for: 40, and 42 for each of the 32 entries that a chart may have. */
#define CHRONICLE_REPORT_BYTES 1384

/* The bytes that chronicle_list asks for, of a table that holds so many rows (chronicle_rows_that_fit). */
#define CHRONICLE_LISTING_BYTES(rows) (40 + 83 * (size_t)(rows))

/* The most bytes that chronicle_write_instant writes. */
#define CHRONICLE_INSTANT_BYTES 12

#ifdef __GNUC__
#define CHRONICLE_CALL __attribute__((nonnull, warn_unused_result))
#define CHRONICLE_NUMBER_CALL __attribute__((const, warn_unused_result))
#else
#define CHRONICLE_CALL
#define CHRONICLE_NUMBER_CALL
#endif

#ifdef __cplusplus
extern "C" {
#endif

/* What a chart check answers: the refusal's number and the line, both 0 for a chart taken. */
struct chronicle_verdict {
    uint32_t refusal;
    uint32_t line;
};

/*
 * An entry of a chart. Operators by their code:
 *     0 event   1 seq   2 or   3 and   4 -[]   5 -][   6 -[[   7 -]]
 *     8 meets   9 overlaps   10 starts   11 during   12 finishes   13 equals
 *     14 lasts   15 atmost   16 atleast   17 after   18 cut   19 change
 * An event has its code in a, and 0 in b; a length test and after have their length in b, in tenths of a millisecond, 0 to
 * 2000000000: of a line `3 atmost 2 0.5` it is 5.
 */
struct chronicle_entry {
    uint8_t op;
    uint32_t a;
    uint32_t b;
};

/* The entries 0 to count - 1; no call looks at those behind them. */
struct chronicle_chart {
    size_t count;
    struct chronicle_entry entries[32];
};

/* A chart that was read; where it is refused, the number, the line and a chart of no entries. */
struct chronicle_chart_answer {
    uint32_t refusal;
    uint32_t line;
    struct chronicle_chart chart;
};

/*
 * A watch: the open instant, the floor, how many events were accepted, how many rows are in use, and the events of the
 * open instant: how many, and their codes in their order. The codes behind these are zeros in a watch that calls have
 * made. No call looks at them; an event, a forget and an addition leave them as they are, and a mark sets all codes to 0.
 * Then how many entries there are, as many as the chart has, and for each the instant from which it counts. The instants
 * behind these are zeros in a watch that calls have made. No call looks at them, and only an addition writes there, as
 * many as it adds entries. All instants, those of `instant`, `floor` and `since`, are in tenths of a millisecond.
 *
 * chronicle_open fills in every field: a program sets none of them. `entries` and `since` came later than the others and
 * made the struct longer, 232 bytes where it had 96: a program compiled with an earlier header must be compiled again,
 * not only linked. A watch that was stored before has neither; read back with zeros behind it, it has no entries and is
 * refused with 13. With the chart's count for `entries` and -1000000000 in that many places of `since`, and its other
 * instants made tenths as said above, it is the watch that it was.
 */
struct chronicle_watch {
    int32_t instant;
    int32_t floor;
    size_t events;
    size_t rows;
    size_t pending;
    uint8_t codes[64];
    size_t entries;
    int32_t since[32];
};

/* What a call on a watch answers: the refusal's number, 0 for none, and the new watch. */
struct chronicle_answer {
    uint32_t refusal;
    struct chronicle_watch watch;
};

/*
 * What an addition answers: the refusal's number and the line, both 0 where it is taken, and the watch and the chart to go
 * on with: the new ones, or where it is refused those given. The line is counted from the first line added; for 14 and 13
 * it is 0.
 */
struct chronicle_addition {
    uint32_t refusal;
    uint32_t line;
    struct chronicle_watch watch;
    struct chronicle_chart chart;
};

/*
 * The rows first to first + count - 1. Where no row has the end asked for, count is 0 and first is how many rows end
 * before it; of a refused call both are 0.
 */
struct chronicle_rows {
    size_t first;
    size_t count;
};

/* What writing a tree answers: the refusal's number, 0 for none, and how many bytes were written. */
struct chronicle_tree_answer {
    uint32_t refusal;
    size_t length;
};

/*
 * A report: the refusal's number, 0 for none; how many entries the chart has; how many rows are in use; how many rows were
 * read to count them, those read for the check apart; and for each entry how many of the rows in use are its. Behind the
 * entries' tallies stand zeros. The tallies together are `rows`, and `read` is `rows` too, however many entries there are:
 * each row is read once. Of a refused report every field but the number is 0.
 */
struct chronicle_report_answer {
    uint32_t refusal;
    size_t entries;
    size_t rows;
    size_t read;
    size_t tallies[32];
};

/*
 * An instant or a length that was read: 1 and its number of tenths of a millisecond, or 0 and 0 where it is malformed. The
 * number may lie outside the range, up to 9999999999 tenths either way, which an int32_t does not hold: the caller
 * compares it with -1000000000 and 1000000000 for an instant, with 2000000000 for a length.
 */
struct chronicle_tenths {
    uint32_t well_formed;
    int64_t tenths;
};

/*
 * Reads an instant on paper. All of the bytes must be its spelling: no tab before it and no line end behind it. Time:
 * constant; at most 12 bytes are looked at, of a text longer than that at most three.
 */
CHRONICLE_CALL
struct chronicle_tenths chronicle_read_instant(const uint8_t *bytes, size_t length);

/* Reads a length on paper: the same without a minus. Time: as chronicle_read_instant. */
CHRONICLE_CALL
struct chronicle_tenths chronicle_read_length(const uint8_t *bytes, size_t length);

/*
 * Writes a number of tenths of a millisecond into `out` as listings have it, any number that an int32_t holds, so a length
 * too: a minus where it is negative, the whole milliseconds, a point and one digit; -20 is -2.0, 5 is 0.5. Returns how many
 * bytes were written and leaves those past them; no byte 0 follows. Where the output is too short, nothing is written and 0
 * is returned; CHRONICLE_INSTANT_BYTES are always enough. Time: one division by 10 for each digit but one.
 */
CHRONICLE_CALL
size_t chronicle_write_instant(int32_t tenths, uint8_t *out, size_t out_length);

/* Checks a chart on paper. Time: proportional to the bytes of its first 33 lines. */
CHRONICLE_CALL
struct chronicle_verdict chronicle_check_chart(const uint8_t *bytes, size_t length);

/* Reads a chart on paper; the entries behind its own are zeros. Time: as chronicle_check_chart. */
CHRONICLE_CALL
struct chronicle_chart_answer chronicle_read_chart(const uint8_t *bytes, size_t length);

/*
 * How many rows a table of `length` numbers holds, for every length: length / 5, rounded down, and at most 65535. Never
 * refused. Time: at most 16 steps of additions and comparisons; no division and no multiplication.
 */
CHRONICLE_NUMBER_CALL
size_t chronicle_rows_that_fit(size_t length);

/*
 * Opens a watch at an instant, in tenths of a millisecond, and fills all rows of the table with zeros. Time: one pass over
 * the table.
 */
CHRONICLE_CALL
struct chronicle_answer chronicle_open(struct chronicle_chart chart, int32_t *table, size_t length, int32_t instant);

/* Takes an event at the open instant, of a code that the chart may name or not. Time: a check. */
CHRONICLE_CALL
struct chronicle_answer chronicle_event(struct chronicle_watch watch, struct chronicle_chart chart,
                                        const int32_t *table, size_t length, uint8_t code);

/*
 * A clock mark at an instant, in tenths of a millisecond: closes every instant from the open one to the last before the
 * mark, and opens the mark's own. Time: a check and a search for new rows at the open instant and at each later one at
 * which a row of after is due. The instants between cost nothing, however many they are. New rows are those that end at the
 * instant closed. For an added entry the rows that started before it counts are looked at like the others, and give none.
 * An entry looks
 *
 *     event                       at the pending events, at the open instant alone
 *     after                       at the rows, old or new, that ended d before, found by two
 *                                 binary searches
 *     or lasts atmost atleast     at the new rows
 *     finishes equals             at the new rows; where one is of b, for each of a, at the
 *                                 new rows
 *     meets overlaps              at the new rows; where one is of b, at the rows that end at
 *     starts during               the least start of those of b or later, the first of which
 *                                 is found by a binary search, and for each of a, at the new
 *                                 rows
 *     seq                         at the new rows; where one is of b, at all rows and, for each
 *                                 of a, at the new rows
 *     cut                         at the new rows; where one is of b, at the old rows back to the
 *                                 last one of b, and further back as long as they end later
 *                                 than the latest start of b found so far; then at the old rows
 *                                 that end no earlier than this start and before the latest
 *                                 start of the new rows of b, found by two binary searches, and
 *                                 for each of a, at the new rows. If no old row is of b, all are
 *                                 passed, and none ends too early
 *     change                      as cut, and for each of those rows of a, at the rows behind it
 *                                 that end before the latest start of the new rows of b, up to
 *                                 the first one of a that starts no earlier and ends later
 *     and                         at the new rows; where one is of b, at all rows; for each of
 *                                 a, at the new rows, and for each new one of a, at all rows
 *     -[] -][ -[[ -]]             at the new rows; where one is of a, at the rows behind the
 *                                 last one of b and, for each of a, at the rows up to there
 *                                 that end no earlier than it starts, back to the first that
 *                                 forbids
 *
 * The new rows of an entry are then put in order, the later start first. Time for k of them: one look at each where they
 * stand so already, two writes of each where no start is before the one above it, otherwise k log k steps.
 *
 * At each of these instants an after also finds when its next row is due: by one or two binary searches, and one look at
 * each row that ended d before an instant between this one and the mark, up to the first one of a that starts no earlier
 * than the after counts. Every later instant gives a new row, so that the rows that fit bound how many there are. Where no
 * event is pending and nothing is due, rows are looked at for after alone, each by one mark.
 */
CHRONICLE_CALL
struct chronicle_answer chronicle_clock(struct chronicle_watch watch, struct chronicle_chart chart, int32_t *table,
                                        size_t length, int32_t instant);

/*
 * A forget: raises the floor, in tenths of a millisecond, and drops the rows that start before it. Time: a check, a second
 * walk of the rows and, where one is dropped, a third one of those kept.
 */
CHRONICLE_CALL
struct chronicle_answer chronicle_forget(struct chronicle_watch watch, struct chronicle_chart chart, int32_t *table,
                                         size_t length, int32_t floor);

/*
 * Adds lines, `size` bytes, to the chart of an open watch, numbered on from its last entry; the new entries count from the
 * open instant. The table is checked and not altered. Time: a check, and proportional to the bytes of the lines up to that
 * of a 33rd entry.
 */
CHRONICLE_CALL
struct chronicle_addition chronicle_add_lines(struct chronicle_watch watch, struct chronicle_chart chart,
                                              const int32_t *table, size_t length, const uint8_t *bytes, size_t size);

/* The number that every call on this watch, chart and table is refused with: 14, 13, or 0 for none. Time: a check. */
CHRONICLE_CALL
uint32_t chronicle_check(struct chronicle_watch watch, struct chronicle_chart chart, const int32_t *table,
                         size_t length);

/*
 * The rows that end at an instant, in tenths of a millisecond: none where there is no such row or the call is refused. The
 * end asked for may be any number. Time: a check and two binary searches.
 */
CHRONICLE_CALL
struct chronicle_rows chronicle_rows_ending(struct chronicle_watch watch, struct chronicle_chart chart,
                                            const int32_t *table, size_t length, int32_t end);

/*
 * Writes the tree of a row into `out` and leaves the bytes past it: `e` and the serial for an event, <L,R> for two
 * operands, <L,_> or <_,R> for or, <L> for an absence, a length test or after. No byte 0 follows. Time: a check and at
 * most about two steps for each byte of the output, however long the tree would be.
 */
CHRONICLE_CALL
struct chronicle_tree_answer chronicle_tree(struct chronicle_watch watch, struct chronicle_chart chart,
                                            const int32_t *table, size_t length, size_t row, uint8_t *out,
                                            size_t out_length);

/*
 * How many rows each entry has: one tally for each entry of the chart, entries without rows too. The table is checked and
 * not altered. Events of the open instant are no rows yet. Time: a check and a second walk of the rows in use, one look at
 * each, whatever the number of entries.
 */
CHRONICLE_CALL
struct chronicle_report_answer chronicle_report(struct chronicle_watch watch, struct chronicle_chart chart,
                                                const int32_t *table, size_t length);

/*
 * Plays a whole input of the listing program, lying in memory: a chart, an empty line and a log, as examples/listing has
 * them. Writes what the program prints, the listing of the table or the one line of a refusal, and returns its length; no
 * byte 0 follows. The table's contents before the call do not matter; after it they are those of the input's last call, or
 * as before where the run was refused before its `open`. Instants and lengths are in milliseconds in the input and the
 * output, as said above under "On paper", and in tenths in the table. Where the output has less than
 * CHRONICLE_LISTING_BYTES of the rows that the table can hold, 40 and 83 for each row, nothing is done and 0 is returned.
 * Time: reading the bytes, and for each line its call without a check.
 */
CHRONICLE_CALL
size_t chronicle_list(const uint8_t *input, size_t input_length, int32_t *table, size_t length, uint8_t *out,
                      size_t out_length);

/*
 * The same for the report program, which takes the same input: plays it, and writes for each entry of its chart one line,
 * the entry and its number of rows parted by a tab, and then `total`, a tab and the number of rows in use, or the one line
 * of a refusal, which is that of chronicle_list. Where the output has less than CHRONICLE_REPORT_BYTES, nothing is done and
 * 0 is returned. Time: as chronicle_list, and at the end a check and one walk of the rows.
 */
CHRONICLE_CALL
size_t chronicle_print_report(const uint8_t *input, size_t input_length, int32_t *table, size_t length, uint8_t *out,
                              size_t out_length);

#undef CHRONICLE_CALL
#undef CHRONICLE_NUMBER_CALL

#ifdef __cplusplus
}
#endif

#endif
