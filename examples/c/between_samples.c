/*
 * A unit at work: seconds arrive one by one, and the sweep makes a few moves after each.
 *
 *     make lib
 *     cc -I target/pierbracken -o between_samples examples/c/between_samples.c \
 *         target/pierbracken/libpierbracken.a
 *     ./between_samples examples/valid.trip
 *
 * A kept second is appended to the lane, and the sweep goes on from its state on the longer lane,
 * whether its budget stopped it or it was over. Run to its end after the last second, it has the
 * windows of pb_evaluate. Ends with 0 where it does, 1 where it does not, 2 for a refusal, 3 where
 * reading or writing fails.
 */
#include <stdio.h>
#include <string.h>

#include "pierbracken.h"

enum { AGREE, DIFFER, REFUSED, NO_ANSWER };
enum { N = PB_TRIP_MOST, ITEM = 15, KEPT_SPEED = 100, MOVES = 2 };

/* One item more than the longest stream: a longer one is then refused as such. */
static uint8_t stream[PB_STREAM_MOST + ITEM];

/* The lanes of the trip, those that grow second by second, and those lent to the evaluation. */
static uint8_t states[N];
static uint16_t speeds[N], ends[N], kept_speeds[N], trip_ends[N];
static int32_t altitudes[N];
static uint32_t co2[N], nox[N], kept[N], kept_co2[N], ranks[N];

static int no_answer(const char *why)
{
    fprintf(stderr, "%s\n", why);
    return NO_ANSWER;
}

static int refused(unsigned number, size_t place)
{
    fprintf(stderr, "refused %u at %zu\n", number, place);
    return REFUSED;
}

/* The seconds of a trip as they arrive: where the sweep stands after the last, run to its end. */
static pb_sweep_answer sweep_as_they_come(uint32_t reference, size_t seconds, size_t *count)
{
    pb_sweep_answer swept = {0};

    for (size_t i = 0; i < seconds && swept.refusal == PB_ACCEPTED; i++) {
        if (states[i] == PB_MEASURED && speeds[i] >= KEPT_SPEED)
            kept[(*count)++] = co2[i];
        swept = pb_sweep(reference, kept, *count, ends, N, swept.state, MOVES);
    }
    if (swept.refusal != PB_ACCEPTED)
        return swept;
    return pb_sweep(reference, kept, *count, ends, N, swept.state, UINT64_MAX);
}

/* Whether the sweep between samples came to the windows of the whole trip, said in a line. */
static int compare(pb_plan plan, size_t n)
{
    size_t count = 0;
    pb_sweep_answer swept = sweep_as_they_come(plan.reference, n, &count);
    pb_trip_answer trip = pb_evaluate(plan, states, n, speeds, n, altitudes, n, co2, n, nox, n,
                                      kept_speeds, N, kept_co2, N, trip_ends, N, ranks, N);

    if (swept.refusal != PB_ACCEPTED)
        return refused(swept.refusal, swept.place);
    if (trip.refusal != PB_ACCEPTED)
        return refused(trip.refusal, trip.place);
    bool agree = swept.over && count == trip.kept && swept.state.dropped == trip.windows &&
                 swept.state.moves == trip.moves &&
                 memcmp(ends, trip_ends, trip.windows * sizeof *ends) == 0;
    printf("windows %u moves %u, %s\n", (unsigned)swept.state.dropped, (unsigned)swept.state.moves,
           agree ? "between samples as for the whole trip" : "otherwise than for the whole trip");
    return agree ? AGREE : DIFFER;
}

int main(int count, char **words)
{
    FILE *file = count == 2 ? fopen(words[1], "rb") : NULL;
    if (file == NULL)
        return no_answer(count == 2 ? "unreadable" : "usage: between_samples TRIP");
    size_t bytes = fread(stream, 1, sizeof stream, file);
    bool readable = !ferror(file);
    fclose(file);
    if (!readable)
        return no_answer("unreadable");
    pb_read_answer read =
        pb_read(stream, bytes, states, N, speeds, N, altitudes, N, co2, N, nox, N);
    if (read.refusal != PB_ACCEPTED)
        return refused(read.refusal, read.place);
    int status = compare(read.plan, read.seconds);
    return fflush(stdout) == 0 && !ferror(stdout) ? status : no_answer("unwritable");
}
