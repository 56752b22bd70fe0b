/*
 * Checks a chart and prints the verdict. Use: check_chart [FILE]
 * Without FILE the chart is read from standard input. To build it:
 *     tools/build host
 *     gcc -std=c11 -Iinclude examples/check_chart.c target/staticlib/libhost.a -o target/check_chart
 */
#include "chronicle.h"

#include <errno.h>
#include <stdio.h>
#include <stdlib.h>
#include <string.h>

enum { TAKEN = 0, REFUSED = 1, FAILED = 2 };

/* The bytes of a chart; `bytes` is never NULL once read_all has succeeded. */
struct text {
    uint8_t *bytes;
    size_t length;
};

static const char HELP[] =
    "use: check_chart [FILE]\n"
    "Checks the chart in FILE, or on standard input, and prints one line:\n"
    "  chart taken\n"
    "  chart refused: NUMBER (MEANING) at line LINE\n"
    "Exit status: 0 chart taken, 1 chart refused, 2 wrong use or the chart cannot be read.\n";

static const char *meaning(uint32_t refusal)
{
    static const char *const MEANINGS[] = {
        "none",
        "no line",
        "a 33rd line",
        "line not of the form",
        "entry number not the next",
        "operand not lower than its entry",
        "code or length out of range",
    };
    return refusal < sizeof MEANINGS / sizeof MEANINGS[0] ? MEANINGS[refusal] : "unknown";
}

/* Doubles the room for the text. Returns 0 on failure, with errno set. */
static int grow(struct text *text, size_t *room)
{
    if (*room > SIZE_MAX / 2) {
        errno = ENOMEM;
        return 0;
    }
    uint8_t *bytes = realloc(text->bytes, *room * 2);
    if (bytes == NULL)
        return 0;
    text->bytes = bytes;
    *room *= 2;
    return 1;
}

/* Reads a stream to its end, whatever its size. Returns 0 on failure; text->bytes is to be freed either way. */
static int read_all(FILE *stream, struct text *text)
{
    size_t room = 4096;
    text->length = 0;
    text->bytes = malloc(room);
    if (text->bytes == NULL)
        return 0;
    for (;;) {
        text->length += fread(text->bytes + text->length, 1, room - text->length, stream);
        if (text->length < room)
            return !ferror(stream);
        if (!grow(text, &room))
            return 0;
    }
}

/* Reads the named file, or standard input where name is NULL. Returns 0 on failure, with errno set. */
static int read_chart(const char *name, struct text *text)
{
    FILE *stream = name == NULL ? stdin : fopen(name, "rb");
    text->bytes = NULL;
    if (stream == NULL)
        return 0;
    int is_read = read_all(stream, text);
    int cause = errno;
    if (name != NULL)
        fclose(stream);
    errno = cause;
    return is_read;
}

/* Prints the verdict in words and returns the exit status. */
static int report(struct chronicle_verdict verdict)
{
    int printed = verdict.refusal == 0
        ? printf("chart taken\n")
        : printf("chart refused: %lu (%s) at line %lu\n", (unsigned long)verdict.refusal,
                 meaning(verdict.refusal), (unsigned long)verdict.line);
    if (printed < 0 || fflush(stdout) != 0)
        return FAILED;
    return verdict.refusal == 0 ? TAKEN : REFUSED;
}

int main(int argc, char **argv)
{
    const char *name = argc == 2 ? argv[1] : NULL;
    if (argc > 2) {
        fputs(HELP, stderr);
        return FAILED;
    }
    if (name != NULL && strcmp(name, "--help") == 0)
        return fputs(HELP, stdout) < 0 || fflush(stdout) != 0 ? FAILED : TAKEN;

    struct text chart;
    int status = FAILED;
    if (read_chart(name, &chart))
        status = report(chronicle_check_chart(chart.bytes, chart.length));
    else
        fprintf(stderr, "check_chart: %s: %s\n", name == NULL ? "standard input" : name, strerror(errno));
    free(chart.bytes);
    return status;
}
