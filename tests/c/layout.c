/*
 * The header from C: it compiles with all warnings, its numbers and masks are the library's, the
 * structs lie as the library lays them, and examples of the paper come out.
 */
#include <math.h>
#include <stdio.h>
#include <string.h>

#include "pierbracken.h"

static int passed, failed;

static void expect(int holds, const char *what)
{
    if (holds) {
        passed++;
    } else {
        failed++;
        printf("failed: %s\n", what);
    }
}

/* The named numbers, and the longest stream as the library reads it. */
static void limits(void)
{
    static uint8_t stream[PB_STREAM_MOST + 15] = {0x10, 0, 0, 0, 1, 0, 0, 0, 1, 0, 0, 0, 1, 0, 0, 0,
                                                  1};
    static uint8_t states[PB_TRIP_MOST + 1], written[PB_STREAM_MOST];
    static uint16_t speeds[PB_TRIP_MOST + 1];
    static int32_t altitudes[PB_TRIP_MOST + 1];
    static uint32_t co2[PB_TRIP_MOST + 1], nox[PB_TRIP_MOST + 1];
    pb_read_answer read;
    pb_write_answer made;

    expect(PB_RELEASE == pb_meaning(), "the header's release is the library's");
    expect(PB_TRIP_MOST == 8192, "8,192 seconds");
    expect(PB_STREAM_MOST == 21 + PB_TRIP_MOST * 15, "a plan and as many seconds");
    for (size_t at = 21; at < sizeof stream; at += 15)
        stream[at] = PB_ITEM_CHECK;
    read = pb_read(stream, PB_STREAM_MOST, states, PB_TRIP_MOST, speeds, PB_TRIP_MOST, altitudes,
                   PB_TRIP_MOST, co2, PB_TRIP_MOST, nox, PB_TRIP_MOST);
    expect(read.refusal == PB_ACCEPTED && read.seconds == PB_TRIP_MOST, "the longest stream");
    made = pb_write(read.plan, states, read.seconds, speeds, read.seconds, altitudes, read.seconds,
                    co2, read.seconds, nox, read.seconds, written, PB_STREAM_MOST);
    expect(made.refusal == PB_ACCEPTED && made.bytes == PB_STREAM_MOST &&
               memcmp(written, stream, PB_STREAM_MOST) == 0,
           "the longest stream, written");
    made = pb_write(read.plan, states, PB_TRIP_MOST + 1, speeds, PB_TRIP_MOST + 1, altitudes,
                    PB_TRIP_MOST + 1, co2, PB_TRIP_MOST + 1, nox, PB_TRIP_MOST + 1, written, 0);
    expect(made.refusal == PB_TOO_MANY && made.place == 0 && made.bytes == 0,
           "one second more is not written");
    read = pb_read(stream, sizeof stream, states, PB_TRIP_MOST, speeds, PB_TRIP_MOST, altitudes,
                   PB_TRIP_MOST, co2, PB_TRIP_MOST, nox, PB_TRIP_MOST);
    expect(read.refusal == PB_TOO_MANY && read.place == PB_STREAM_MOST, "one second more");
}

/* The masks stand in the order of the reasons, a bit each. */
static void reasons(void)
{
    static const uint16_t masks[16] = {
        PB_REASON_TRIP_LENGTH, PB_REASON_MISSING_SECONDS, PB_REASON_SHORT_PART,
        PB_REASON_SHARE_OF_DISTANCE, PB_REASON_URBAN_MEAN, PB_REASON_SLOW_SECONDS,
        PB_REASON_FEW_FAST_SECONDS, PB_REASON_TOO_FAST, PB_REASON_ENDS_APART, PB_REASON_TOO_HIGH,
        PB_REASON_TOO_MUCH_CLIMB, PB_REASON_FEW_PRODUCTS, PB_REASON_LIVELY_BIN, PB_REASON_DULL_BIN,
        PB_REASON_NO_WINDOWS, PB_REASON_OUTSIDE_BAND};
    const uint16_t lively_or_dull = PB_REASON_LIVELY_BIN | PB_REASON_DULL_BIN;

    for (unsigned bit = 0; bit < 16; bit++) {
        expect(masks[bit] == 1u << bit, "the mask of a reason");
        expect(pb_has_reason(masks[bit], masks[bit]), "a verdict with one reason has it");
        expect(pb_has_reason(0xffff, masks[bit]), "a verdict with all reasons has it");
        expect(!pb_has_reason((uint16_t)~masks[bit], masks[bit]), "one with all others has it not");
        expect(pb_has_reason(0xc86d, masks[bit]) == (0xc86d >> bit & 1), "the printed case has it");
    }
    expect(!pb_has_reason(0, 0xffff) && !pb_has_reason(0xffff, 0), "none, and none asked for");
    expect(pb_has_reason(0x2000, lively_or_dull) && !pb_has_reason(0x4fff, lively_or_dull),
           "either of two reasons");
}

static void layout(void)
{
    expect(sizeof(pb_setting) == 24, "size of pb_setting");
    expect(offsetof(pb_setting, u) == 0, "offset of u");
    expect(offsetof(pb_setting, factor) == 8, "offset of factor");
    expect(offsetof(pb_setting, flow) == 16, "offset of flow");
    expect(sizeof(pb_mass_answer) == 16, "size of pb_mass_answer");
    expect(offsetof(pb_mass_answer, refusal) == 0, "offset of refusal");
    expect(offsetof(pb_mass_answer, mass) == 4, "offset of mass");
    expect(offsetof(pb_mass_answer, place) == 8, "offset of place");
    expect(sizeof(pb_plan) == 20, "size of pb_plan");
    expect(offsetof(pb_plan, lower) == 16, "offset of lower");
    expect(offsetof(pb_plan, motorway) == 19, "offset of motorway");
    expect(sizeof(pb_item_answer) == 56, "size of pb_item_answer");
    expect(offsetof(pb_item_answer, kind) == 1, "offset of kind");
    expect(offsetof(pb_item_answer, speed) == 2, "offset of speed");
    expect(offsetof(pb_item_answer, altitude) == 4, "offset of altitude");
    expect(offsetof(pb_item_answer, nox) == 12, "offset of nox");
    expect(offsetof(pb_item_answer, plan) == 16, "offset of an item's plan");
    expect(offsetof(pb_item_answer, length) == 40, "offset of length");
    expect(offsetof(pb_item_answer, place) == 48, "offset of an item's place");
    expect(sizeof(pb_read_answer) == 48, "size of pb_read_answer");
    expect(offsetof(pb_read_answer, place) == 8, "offset of a reading's place");
    expect(offsetof(pb_read_answer, plan) == 16, "offset of a reading's plan");
    expect(offsetof(pb_read_answer, seconds) == 40, "offset of seconds");
    expect(sizeof(pb_write_answer) == 24, "size of pb_write_answer");
    expect(offsetof(pb_write_answer, refusal) == 0, "offset of a writing's refusal");
    expect(offsetof(pb_write_answer, place) == 8, "offset of a writing's place");
    expect(offsetof(pb_write_answer, bytes) == 16, "offset of bytes");
    expect(sizeof(pb_reader) == 72, "size of pb_reader");
    expect(offsetof(pb_reader, refusal) == 0, "offset of a reader's refusal");
    expect(offsetof(pb_reader, plan) == 4, "offset of a reader's plan");
    expect(offsetof(pb_reader, seconds) == 24, "offset of a reader's seconds");
    expect(offsetof(pb_reader, at) == 32, "offset of at");
    expect(offsetof(pb_reader, count) == 40, "offset of count");
    expect(offsetof(pb_reader, held) == 48, "offset of held");
    expect(sizeof(pb_fed) == 88, "size of pb_fed");
    expect(offsetof(pb_fed, place) == 8, "offset of a feed's place");
    expect(offsetof(pb_fed, reader) == 16, "offset of reader");
    expect(sizeof(pb_sweep_state) == 32, "size of pb_sweep_state");
    expect(sizeof(pb_sweep_answer) == 64, "size of pb_sweep_answer");
    expect(offsetof(pb_sweep_answer, place) == 8, "offset of a sweep's place");
    expect(offsetof(pb_sweep_answer, state) == 16, "offset of state");
    expect(offsetof(pb_sweep_answer, moves) == 48, "offset of moves");
    expect(offsetof(pb_sweep_answer, over) == 56, "offset of over");
    expect(sizeof(pb_acceleration_answer) == 16, "size of pb_acceleration_answer");
    expect(offsetof(pb_acceleration_answer, has_d) == 1, "offset of has_d");
    expect(offsetof(pb_acceleration_answer, rise) == 2, "offset of rise");
    expect(offsetof(pb_acceleration_answer, fall) == 4, "offset of fall");
    expect(offsetof(pb_acceleration_answer, place) == 8, "offset of an acceleration's place");
    expect(sizeof(pb_percentile_answer) == 24, "size of pb_percentile_answer");
    expect(offsetof(pb_percentile_answer, q) == 8, "offset of q");
    expect(offsetof(pb_percentile_answer, place) == 16, "offset of a percentile's place");
    expect(sizeof(pb_tally) == 24, "size of pb_tally");
    expect(sizeof(pb_bin) == 48, "size of pb_bin");
    expect(offsetof(pb_bin, m) == 24, "offset of m");
    expect(offsetof(pb_bin, t) == 32, "offset of t");
    expect(offsetof(pb_bin, q) == 40, "offset of a bin's q");
    expect(sizeof(pb_class) == 8, "size of pb_class");
    expect(sizeof(pb_trip_answer) == 248, "size of pb_trip_answer");
    expect(offsetof(pb_trip_answer, place) == 8, "offset of a trip's place");
    expect(offsetof(pb_trip_answer, seconds) == 16, "offset of a trip's seconds");
    expect(offsetof(pb_trip_answer, moves) == 32, "offset of a trip's moves");
    expect(offsetof(pb_trip_answer, bins) == 40, "offset of bins");
    expect(offsetof(pb_trip_answer, total) == 184, "offset of total");
    expect(offsetof(pb_trip_answer, climb) == 208, "offset of climb");
    expect(offsetof(pb_trip_answer, classes) == 216, "offset of classes");
    expect(offsetof(pb_trip_answer, verdict) == 240, "offset of verdict");
}

static void mass(void)
{
    pb_setting setting = {0x1p-10, 0.5, 0.125};
    pb_mass_answer answer = pb_mass_co2(PB_DRY_PPM, 1024.0, setting);
    expect(answer.refusal == PB_ACCEPTED && answer.mass == 62 && answer.place == 0,
           "example (l): 62 mg");
    answer = pb_mass_nox(PB_DRY_PPM, 1024.0, setting);
    expect(answer.refusal == PB_ACCEPTED && answer.mass == 62500 && answer.place == 0,
           "the same reading as NOx: 62,500 ug");
    answer = pb_mass_co2(4, 1024.0, setting);
    expect(answer.refusal == PB_MASS_INPUT && answer.mass == 0 && answer.place == 0,
           "a kind above 3 is refusal 9");
    answer = pb_mass_co2(PB_WET_PPM, nan(""), setting);
    expect(answer.refusal == PB_MASS_INPUT && answer.mass == 0 && answer.place == 0,
           "a NaN is refusal 9");
    setting.u = 0.01;
    setting.flow = 1.0;
    answer = pb_mass_co2(PB_WET_PPM, 200000.0, setting);
    expect(answer.refusal == PB_MASS_TOO_LARGE && answer.mass == 0 && answer.place == 0,
           "a mass above its range is refusal 10");
}

/* A reader that an item of no kind settles after a stream: what it holds, and what it answers. */
static void settled_reader(const uint8_t *stream, size_t bytes)
{
    static const uint8_t bad[2] = {0x7f, 0x7f};
    uint8_t states[6];
    uint16_t speeds[6];
    int32_t altitudes[6];
    uint32_t co2[6], nox[6];
    pb_fed fed = pb_feed(pb_start(), stream, bytes, states, 6, speeds, 6, altitudes, 6, co2, 6, nox,
                         6);

    for (int i = 0; i < 2; i++) {
        fed = pb_feed(fed.reader, bad, 2, states, 6, speeds, 6, altitudes, 6, co2, 6, nox, 6);
        expect(fed.refusal == PB_ACCEPTED && fed.reader.refusal == PB_UNKNOWN_KIND &&
                   fed.reader.at == bytes && fed.reader.seconds == 5 &&
                   fed.reader.plan.e3 == 160000 && fed.reader.count == 0 && fed.reader.held[0] == 0,
               "a settled reader: the refusal and its place, what was read, nothing held");
    }
    pb_read_answer read = pb_end(fed.reader);
    expect(read.refusal == PB_UNKNOWN_KIND && read.place == bytes && read.seconds == 0,
           "the end answers what settled the reader");
}

/* The printed case: its stream, read item by item and whole, and swept. */
static void printed_case(void)
{
    uint8_t stream[96] = {0x10, 0, 0, 0, 7, 0, 3, 0x0d, 0x40, 0, 2, 0x22, 0xe0, 0, 2, 0x71, 0,
                          25, 45, 40, 40};
    static const uint8_t masses[5] = {3, 0, 4, 2, 5};
    uint8_t states[6] = {9, 9, 9, 9, 9, 9};
    uint16_t speeds[6], ends[5] = {9, 9, 9, 9, 9};
    int32_t altitudes[6];
    uint32_t co2[6], nox[6];
    for (int i = 0; i < 5; i++) {
        uint8_t *item = stream + 21 + 15 * i;
        item[0] = PB_ITEM_MEASURED;
        item[1] = 0x0e;
        item[2] = 0x10;
        item[10] = masses[i];
    }
    pb_item_answer item = pb_item(stream + 21, sizeof stream - 21);
    expect(item.refusal == 0 && item.kind == PB_ITEM_MEASURED && item.length == 15 &&
               item.speed == 3600 && item.co2 == 3,
           "the first second as an item");
    pb_read_answer read = pb_read(stream, sizeof stream, states, 6, speeds, 6, altitudes, 6, co2,
                                  6, nox, 6);
    expect(read.refusal == 0 && read.seconds == 5 && read.plan.e3 == 160000 && states[5] == 9,
           "the stream whole");
    uint8_t again[97];
    again[96] = 9;
    pb_write_answer made = pb_write(read.plan, states, 5, speeds, 5, altitudes, 5, co2, 5, nox, 5,
                                    again, sizeof again);
    expect(made.refusal == 0 && made.bytes == sizeof stream &&
               memcmp(again, stream, sizeof stream) == 0 && again[96] == 9,
           "the stream, read and written");
    pb_sweep_state beginning = {0, 0, 0, 0};
    pb_sweep_answer swept = pb_sweep(read.plan.reference, co2, 5, ends, 5, beginning, UINT64_MAX);
    expect(swept.refusal == 0 && swept.over && swept.moves == 9 && swept.state.dropped == 4 &&
               ends[0] == 3 && ends[1] == 5 && ends[2] == 5 && ends[3] == 5 && ends[4] == 9,
           "example (a): ends 3, 5, 5, 5 and 9 moves");
    uint16_t kept_speeds[5];
    uint32_t kept_co2[5], ranks[5];
    pb_trip_answer trip = pb_evaluate(read.plan, states, 5, speeds, 5, altitudes, 5, co2, 5, nox, 5,
                                      kept_speeds, 5, kept_co2, 5, ends, 5, ranks, 5);
    expect(trip.refusal == 0 && trip.seconds == 5 && trip.missing == 0 && trip.kept == 5 &&
               trip.windows == 4 && trip.moves == 9 && trip.classes[0].windows == 4 &&
               trip.classes[0].inside == 0 && trip.verdict == 0xc86d,
           "the printed case: reasons c86d");
    read = pb_read(stream, sizeof stream - 1, states, 6, speeds, 6, altitudes, 6, co2, 6, nox, 6);
    expect(read.refusal == PB_CUT_ITEM && read.place == 81 && read.seconds == 0,
           "a cut stream is refusal 7 at its last item");
    states[4] = 9;
    pb_fed fed = {PB_ACCEPTED, 0, pb_start()};
    for (size_t at = 0; at < sizeof stream; at += 8)
        fed = pb_feed(fed.reader, stream + at, 8, states, 6, speeds, 6, altitudes, 6, co2, 6, nox, 6);
    read = pb_end(fed.reader);
    expect(read.refusal == 0 && read.seconds == 5 && states[4] == 1 && states[5] == 9,
           "the stream in blocks of 8 bytes");
    settled_reader(stream, sizeof stream);
    fed.reader.at++;
    fed = pb_feed(fed.reader, stream, 1, states, 6, speeds, 6, altitudes, 6, co2, 6, nox, 6);
    expect(fed.refusal == PB_STATE_NOT_REACHED && fed.reader.seconds == 0,
           "a reader that was never made is refusal 13");
}

/* Three seconds, one in each state; the missing one has values that no second has. */
struct lanes {
    uint8_t states[3];
    uint16_t speeds[3];
    int32_t altitudes[3];
    uint32_t co2[3], nox[3];
};

enum { PLAN = 21, THREE = PLAN + 15 + 1 + 15, ROOM = THREE + 1, PAINT = 9 };

/* Writes the first seconds of a trip into as many places of a painted buffer. */
static pb_write_answer write_front(pb_plan plan, const struct lanes *trip, size_t n,
                                   uint8_t *stream, size_t places)
{
    memset(stream, PAINT, ROOM);
    return pb_write(plan, trip->states, n, trip->speeds, n, trip->altitudes, n, trip->co2, n,
                    trip->nox, n, stream, places);
}

/* Whether a call was refused so, and wrote nothing. */
static bool is_refused(pb_write_answer made, uint8_t refusal, size_t place, const uint8_t *stream)
{
    uint8_t painted[ROOM];

    memset(painted, PAINT, ROOM);
    return made.refusal == refusal && made.place == place && made.bytes == 0 &&
           memcmp(stream, painted, ROOM) == 0;
}

/* The bytes of a trip, of its fronts, and each refusal (too many seconds: `limits`). */
static void writing(void)
{
    static const uint8_t bytes[THREE] = {
        PB_ITEM_PLAN, 0, 0, 0, 7, 0, 3, 0x0d, 0x40, 0, 2, 0x22, 0xe0, 0, 2, 0x71, 0, 25, 45, 40, 41,
        PB_ITEM_MEASURED, 0x0e, 0x10, 0xff, 0xff, 0x3c, 0xb0, 0, 0, 0, 3, 0, 0, 1, 0,
        PB_ITEM_MISSING,
        PB_ITEM_CHECK, 0x61, 0xa8, 0, 7, 0xa1, 0x20, 0, 1, 0x86, 0xa0, 0, 0x98, 0x96, 0x80};
    pb_plan plan = {7, 200000, 140000, 160000, 25, 45, 40, 41};
    struct lanes trip = {{PB_MEASURED, PB_MISSING, PB_CHECK},
                         {3600, UINT16_MAX, 25000},
                         {-50000, INT32_MIN, 500000},
                         {3, UINT32_MAX, 100000},
                         {256, UINT32_MAX, 10000000}};
    static const size_t lengths[4] = {PLAN, PLAN + 15, PLAN + 15 + 1, THREE};
    uint8_t stream[ROOM];

    for (size_t n = 0; n <= 3; n++) {
        pb_write_answer made = write_front(plan, &trip, n, stream, lengths[n]);
        expect(made.refusal == PB_ACCEPTED && made.place == 0 && made.bytes == lengths[n] &&
                   memcmp(stream, bytes, lengths[n]) == 0 && stream[lengths[n]] == PAINT,
               "the first seconds of a trip, into as many places as they need");
        made = write_front(plan, &trip, n, stream, lengths[n] - 1);
        expect(is_refused(made, PB_LANE_TOO_SHORT, 0, stream), "a place less is refusal 6");
    }
    trip.states[0] = PB_MISSING;
    expect(write_front(plan, &trip, 2, stream, ROOM).bytes == PLAN + 2, "missing seconds alone");
    for (uint8_t state = 0; state <= 4; state += 4) {
        trip.states[2] = state;
        expect(is_refused(write_front(plan, &trip, 3, stream, ROOM), PB_OUT_OF_RANGE, 2, stream),
               "a state that there is not is refusal 3 at its index");
    }
    trip.states[2] = PB_CHECK;
    trip.speeds[2]++;
    expect(is_refused(write_front(plan, &trip, 3, stream, 0), PB_OUT_OF_RANGE, 2, stream),
           "a value out of range too, before 6");
    for (int i = 0; i < 2; i++) {
        pb_write_answer made = pb_write(plan, trip.states, 3, trip.speeds, 3, trip.altitudes, 3,
                                        trip.co2, 3, trip.nox, 2, stream, ROOM);
        expect(is_refused(made, i == 0 ? PB_LANES_DIFFER : PB_PLAN_OUT_OF_RANGE, 0, stream),
               "lanes that differ are refusal 1, before 3; a bad plan is refusal 5, before 1");
        plan.motorway = 101;
    }
}

/* Whether a sweep of a lane's front, by some moves, goes on to its end on the whole lane. */
static bool resumes(uint32_t reference, const uint32_t *co2, size_t front, uint64_t moves)
{
    static const pb_sweep_state beginning;
    uint16_t ends[5] = {9, 9, 9, 9, 9}, whole[5] = {9, 9, 9, 9, 9};
    pb_sweep_answer at_once = pb_sweep(reference, co2, 5, whole, 5, beginning, UINT64_MAX);
    pb_sweep_answer part = pb_sweep(reference, co2, front, ends, 5, beginning, moves);
    pb_sweep_answer rest = pb_sweep(reference, co2, 5, ends, 5, part.state, UINT64_MAX);

    return part.refusal == 0 && rest.refusal == 0 && rest.over &&
           part.moves + rest.moves == at_once.moves && rest.state.dropped == at_once.state.dropped &&
           memcmp(ends, whole, sizeof ends) == 0;
}

/* All lanes of five masses up to 2, all their fronts, and every number of moves up to the last. */
static void longer_lane(void)
{
    for (uint32_t reference = 1; reference <= 11; reference++) {
        bool all = true;

        for (uint32_t lane = 0; lane < 243; lane++) {
            const uint32_t co2[5] = {lane % 3, lane / 3 % 3, lane / 9 % 3, lane / 27 % 3, lane / 81};

            for (size_t front = 0; front <= 5; front++)
                for (uint64_t moves = 0; moves <= 10; moves++)
                    all = all && resumes(reference, co2, front, moves);
        }
        expect(all, "a sweep goes on where the lane grew");
    }
}

/* Examples (g) and (i): D of three speeds, and Q of 1 to 101. */
static void dynamics(void)
{
    static const uint8_t states[3] = {1, 1, 1};
    static const uint16_t speeds[3] = {1000, 2000, 1500};
    static const int32_t altitudes[3] = {0, 0, 0};
    static const uint32_t none[3] = {0, 0, 0};
    uint32_t products[101], ranks[101];
    pb_acceleration_answer d =
        pb_acceleration(states, 3, speeds, 3, altitudes, 3, none, 3, none, 3, 0);
    expect(d.refusal == 0 && d.has_d && d.rise == 2000 && d.fall == 0, "D of the first second");
    d = pb_acceleration(states, 3, speeds, 3, altitudes, 3, none, 3, none, 3, 2);
    expect(d.refusal == 0 && d.has_d && d.rise == 0 && d.fall == 2000, "D of the last second");
    for (uint32_t i = 0; i < 101; i++)
        products[i] = 101 - i;
    pb_percentile_answer p = pb_percentile(products, 101, ranks, 101);
    expect(p.refusal == 0 && p.q == 9595 && ranks[0] == 1 && ranks[100] == 101,
           "ranks 1 to 101: Q 9,595");
}

int main(void)
{
    limits();
    reasons();
    layout();
    mass();
    printed_case();
    writing();
    longer_lane();
    dynamics();
    printf("%d passed, %d failed\n", passed, failed);
    return failed != 0;
}
