/*
 * Judges the trip in a file with the library alone.
 *
 *     make lib
 *     cc -I target/pierbracken -o judge examples/c/judge.c target/pierbracken/libpierbracken.a
 *     ./judge examples/printed.trip
 *
 * Prints what the program prints, and on standard error the reasons or the refusal in words. Ends
 * with 0 for a valid trip, 1 for one that is not, 2 for a refusal, 3 if reading or writing fails.
 */
#include <stdio.h>

#include "pierbracken.h"

enum { VALID, NOT_VALID, REFUSED, NO_ANSWER };
enum { BLOCK = 4096, N = PB_TRIP_MOST };

/* The lanes of one trip, and those lent to its evaluation: 216 KiB that a unit sets aside once. */
static uint8_t states[N];
static uint16_t speeds[N], kept_speeds[N], ends[N];
static int32_t altitudes[N];
static uint32_t co2[N], nox[N], kept_co2[N], ranks[N];

/* By number of refusal. */
static const char *const refusals[14] = {
    "", "lanes differ in length", "more than 8,192 seconds", "a value is out of range",
    "no second was measured", "the plan is out of range", "a lane is too short",
    "the stream ends inside an item", "an item of unknown kind", "a mass input is out of range",
    "a mass is too large", "the plan is absent, late or repeated", "too few values",
    "the reader was changed between two blocks"};

/* By reason, from PB_REASON_TRIP_LENGTH to PB_REASON_OUTSIDE_BAND. */
static const char *const reasons[16] = {
    "too short or too long", "too much of it is missing", "a part is too short",
    "the parts are out of proportion", "the urban speed is too low or too high",
    "too little or too much standing", "too little time above 100 km/h", "the speed is too high",
    "start and end differ in height", "it goes too high", "it climbs too much",
    "too little acceleration to judge", "a part is too lively", "a part is too dull",
    "a class has no windows", "too few windows inside the band"};

static int no_answer(const char *why)
{
    fprintf(stderr, "%s\n", why);
    return NO_ANSWER;
}

static int refused(unsigned number, size_t place)
{
    printf("refused %u at %zu\n", number, place);
    fprintf(stderr, "refused: %s\n", refusals[number]);
    return REFUSED;
}

static int judge(pb_plan plan, size_t n)
{
    static const char *const names[3] = {"urban", "rural", "motorway"};
    pb_trip_answer trip = pb_evaluate(plan, states, n, speeds, n, altitudes, n, co2, n, nox, n,
                                      kept_speeds, N, kept_co2, N, ends, N, ranks, N);

    if (trip.refusal != PB_ACCEPTED)
        return refused(trip.refusal, trip.place);
    printf("seconds %u missing %u kept %u\n", trip.seconds, trip.missing, trip.kept);
    printf("windows %u moves %u\n", trip.windows, trip.moves);
    for (int i = 0; i < 3; i++)
        printf("%s %u %u\n", names[i], trip.classes[i].windows, trip.classes[i].inside);
    printf("reasons %04x\n", (unsigned)trip.verdict);
    for (int i = 0, mask = PB_REASON_TRIP_LENGTH; mask <= PB_REASON_OUTSIDE_BAND; i++, mask *= 2)
        if (pb_has_reason(trip.verdict, (uint16_t)mask))
            fprintf(stderr, "not valid: %s\n", reasons[i]);
    return trip.verdict == 0 ? VALID : NOT_VALID;
}

/* Reads the stream in blocks and judges it; nothing keeps the whole stream. */
static int read_and_judge(FILE *file)
{
    uint8_t block[BLOCK];
    pb_fed fed = {PB_ACCEPTED, 0, pb_start()};
    size_t n;

    while (fed.refusal == PB_ACCEPTED && fed.reader.refusal == PB_ACCEPTED &&
           (n = fread(block, 1, BLOCK, file)) > 0)
        fed = pb_feed(fed.reader, block, n, states, N, speeds, N, altitudes, N, co2, N, nox, N);
    if (ferror(file))
        return no_answer("unreadable");
    if (fed.refusal != PB_ACCEPTED) /* its reader is a new one, and says nothing of the stream */
        return refused(fed.refusal, fed.place);
    pb_read_answer read = pb_end(fed.reader);
    return read.refusal ? refused(read.refusal, read.place) : judge(read.plan, read.seconds);
}

int main(int count, char **words)
{
    FILE *file = count == 2 ? fopen(words[1], "rb") : NULL;
    if (file == NULL)
        return no_answer(count == 2 ? "unreadable" : "usage: judge TRIP");
    int status = read_and_judge(file);
    fclose(file);
    return fflush(stdout) == 0 && !ferror(stdout) ? status : no_answer("unwritable");
}
