/*
 * Trims a trip's tail: reads a stream from a file and writes the stream of its first seconds.
 *
 *     make lib
 *     cc -I target/pierbracken -o trim examples/c/trim.c target/pierbracken/libpierbracken.a
 *     ./trim examples/valid.trip 5400 > trimmed.trip
 *
 * Standard output has the stream and nothing else, and nothing before all of it is made; standard
 * error says in words what is wrong. Ends with 0 where the stream was written, 2 for a refusal, 3
 * where there is none to write: not so many seconds, no number, or reading or writing fails.
 */
#include <stdio.h>
#include <stdlib.h>
#include <string.h>

#include "pierbracken.h"

enum { WRITTEN = 0, REFUSED = 2, NO_ANSWER = 3 };
enum { N = PB_TRIP_MOST };

/* The lanes of one trip, and the blocks that are read, then the stream that is written. */
static uint8_t states[N];
static uint16_t speeds[N];
static int32_t altitudes[N];
static uint32_t co2[N], nox[N];
static uint8_t stream[PB_STREAM_MOST];

static int no_answer(const char *why)
{
    fprintf(stderr, "%s\n", why);
    return NO_ANSWER;
}

/* The refusals that a stream can have. */
static const char *meaning_of(unsigned number)
{
    switch (number) {
    case PB_TOO_MANY: return "more than 8,192 seconds";
    case PB_OUT_OF_RANGE: return "a value is out of range";
    case PB_PLAN_OUT_OF_RANGE: return "the plan is out of range";
    case PB_CUT_ITEM: return "the stream ends inside an item";
    case PB_UNKNOWN_KIND: return "an item of unknown kind";
    case PB_PLAN_MISPLACED: return "the plan is absent, late or repeated";
    default: return "see pierbracken.h";
    }
}

static int refused(unsigned number, const char *unit, size_t place)
{
    fprintf(stderr, "refused %u at %s %zu: %s\n", number, unit, place, meaning_of(number));
    return REFUSED;
}

/* Writes the first n seconds of the lanes. */
static int write_front(pb_plan plan, size_t n)
{
    pb_write_answer made = pb_write(plan, states, n, speeds, n, altitudes, n, co2, n, nox, n,
                                    stream, sizeof stream);

    if (made.refusal != PB_ACCEPTED) /* never, of lanes that were read */
        return refused(made.refusal, "second", made.place);
    bool written = fwrite(stream, 1, made.bytes, stdout) == made.bytes && fflush(stdout) == 0;
    return written ? WRITTEN : no_answer("unwritable");
}

static int read_and_trim(FILE *file, size_t seconds)
{
    pb_fed fed = {PB_ACCEPTED, 0, pb_start()};
    size_t n;

    while (fed.refusal == PB_ACCEPTED && fed.reader.refusal == PB_ACCEPTED &&
           (n = fread(stream, 1, sizeof stream, file)) > 0)
        fed = pb_feed(fed.reader, stream, n, states, N, speeds, N, altitudes, N, co2, N, nox, N);
    if (ferror(file))
        return no_answer("unreadable");
    if (fed.refusal != PB_ACCEPTED) /* its reader is a new one, and says nothing of the stream */
        return refused(fed.refusal, "byte", fed.place);
    pb_read_answer read = pb_end(fed.reader);
    if (read.refusal != PB_ACCEPTED)
        return refused(read.refusal, "byte", read.place);
    if (read.seconds >= seconds)
        return write_front(read.plan, seconds);
    fprintf(stderr, "the trip has fewer seconds: %zu\n", read.seconds);
    return NO_ANSWER;
}

int main(int count, char **words)
{
    if (count != 3 || *words[2] == '\0' || words[2][strspn(words[2], "0123456789")] != '\0')
        return no_answer("usage: trim TRIP SECONDS, a whole number of them to keep");
    FILE *file = fopen(words[1], "rb");
    if (file == NULL)
        return no_answer("unreadable");
    /* A number too large for its type becomes the largest, and no trip has so many seconds. */
    int status = read_and_trim(file, strtoul(words[2], NULL, 10));
    fclose(file);
    return status;
}
