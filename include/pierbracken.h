/*
 * Pierbracken: whether a PEMS trip is valid, and from which figures.
 *
 * For x86-64 Linux (System V calling convention), from C11 or C++: link with libpierbracken.a.
 *
 * Every function takes every value: any bit pattern of any number has an answer. Each ends, and
 * allocates nothing. An answer begins with the number of its refusal. A refused call has every
 * result but number and place zero, and writes into no lent lane.
 *
 * The caller's duties, which no call can test:
 *  - No pointer is NULL, also where its count is 0. Each has as many places as its count says, with
 *    the natural alignment of their type.
 *  - No lane, and no stream, that is written overlaps anything else that the call reads or writes.
 *    Kept lanes lent over the trip's own give an accepted, wrong answer; products are not ranked in
 *    place.
 *  - The float mode is as C starts it: round to nearest, denormals kept. In another rounding mode,
 *    or with the start-up code of -ffast-math, masses and their refusals differ.
 *  - Calls may run in several threads; no two at a time share a lane that one of them writes.
 */
#ifndef PIERBRACKEN_H
#define PIERBRACKEN_H

#include <stdbool.h>
#include <stddef.h>
#include <stdint.h>

#ifdef __cplusplus
extern "C" {
#endif

#define PB_RELEASE 2          /* the release of the meaning that this header was written for */
#define PB_TRIP_MOST 8192     /* seconds of the longest trip, and places enough for any lane */
#define PB_STREAM_MOST 122901 /* bytes of the longest stream: a plan and PB_TRIP_MOST seconds */

/*
 * The stack that a call needs, at most, in bytes below the caller's stack pointer: its return
 * address and all beneath it (tests/c/stack.c measures it). A dynamic linker that binds memcpy or
 * memset when pb_feed first calls it needs more, that once.
 */
enum {
    PB_STACK_EVALUATE = 8192,   /* pb_evaluate: ranking is up to 33 calls within one another */
    PB_STACK_PERCENTILE = 7680, /* pb_percentile: likewise */
    PB_STACK_FEED = 1536,       /* pb_feed */
    PB_STACK_OTHER = 512        /* any other call */
};

/* The numbers of refusal, each given exactly when: */
enum {
    PB_ACCEPTED = 0,           /* no refusal */
    PB_LANES_DIFFER = 1,       /* lanes of one trip differ in length */
    PB_TOO_MANY = 2,           /* more than 8,192 seconds or values */
    PB_OUT_OF_RANGE = 3,       /* a state or value out of range */
    PB_NO_SECOND = 4,          /* no second in state 1 or 3, or an asked index past the end */
    PB_PLAN_OUT_OF_RANGE = 5,  /* plan out of range */
    PB_LANE_TOO_SHORT = 6,     /* a lane to be written is too short */
    PB_CUT_ITEM = 7,           /* stream ends inside an item */
    PB_UNKNOWN_KIND = 8,       /* unknown kind */
    PB_MASS_INPUT = 9,         /* a mass input not finite or out of range */
    PB_MASS_TOO_LARGE = 10,    /* the whole-part mass above the second's range */
    PB_PLAN_MISPLACED = 11,    /* plan absent, late or repeated */
    PB_TOO_FEW_VALUES = 12,    /* percentile asked of fewer than 100 values */
    PB_STATE_NOT_REACHED = 13  /* sweep state, or reader of blocks, that is never reached */
};

/* ---- what "valid" means ---- */

/*
 * The release of the meaning: the entry of docs/VALID.md by which this build answers. It changes
 * whenever a figure, a reason or a refusal does: store it beside a verdict. An earlier release still
 * answers by the independent program (`make judge-as`). Where it is not PB_RELEASE, header and
 * library are not of one release.
 */
uint32_t pb_meaning(void);

/* The reasons why a trip is not valid, as bits of its verdict. Parts are the three bins. */
enum {
    PB_REASON_TRIP_LENGTH = 0x0001,       /* not 5,400 to 7,200 seconds */
    PB_REASON_MISSING_SECONDS = 0x0002,   /* 1 percent missing or more, or over 30 in a row */
    PB_REASON_SHORT_PART = 0x0004,        /* a part below 16 km */
    PB_REASON_SHARE_OF_DISTANCE = 0x0008, /* not urban 29 to 44, the others 23 to 43 percent */
    PB_REASON_URBAN_MEAN = 0x0010,        /* urban mean speed not 15 to 40 km/h */
    PB_REASON_SLOW_SECONDS = 0x0020,      /* not 6 to 30 percent of urban seconds below 1 km/h */
    PB_REASON_FEW_FAST_SECONDS = 0x0040,  /* fewer than 300 seconds above 100 km/h */
    PB_REASON_TOO_FAST = 0x0080,          /* above 160 km/h, or over 3 % of motorway above 145 */
    PB_REASON_ENDS_APART = 0x0100,        /* first and last altitude over 100 m apart */
    PB_REASON_TOO_HIGH = 0x0200,          /* a corrected altitude above 1,300 m */
    PB_REASON_TOO_MUCH_CLIMB = 0x0400,    /* climb not below 1,200 m in 100 km */
    PB_REASON_FEW_PRODUCTS = 0x0800,      /* a part with fewer than 100 accelerating seconds */
    PB_REASON_LIVELY_BIN = 0x1000,        /* a part too lively */
    PB_REASON_DULL_BIN = 0x2000,          /* a part too dull */
    PB_REASON_NO_WINDOWS = 0x4000,        /* a class without windows */
    PB_REASON_OUTSIDE_BAND = 0x8000       /* a class with windows, under half inside the band */
};

/* Whether a verdict has any of the reasons of a mask. */
bool pb_has_reason(uint16_t verdict, uint16_t mask);

/* ---- from concentration to mass ---- */

/* The kind of a reading of the gas bench, and the range of its value. */
enum {
    PB_WET_PPM = 0,     /* ppm, 0 to 200,000 */
    PB_DRY_PPM = 1,     /* ppm, 0 to 200,000 */
    PB_WET_PERCENT = 2, /* percent, 0 to 20 */
    PB_DRY_PERCENT = 3  /* percent, 0 to 20 */
};

/* What the reading was taken at. */
typedef struct pb_setting {
    double u;      /* above 0, at most 0.01 */
    double factor; /* the dry-wet factor: above 0, at most 1 */
    double flow;   /* exhaust flow in kg/s: 0 to 1 */
} pb_setting;

/* The answer of a mass call. */
typedef struct pb_mass_answer {
    uint8_t refusal; /* PB_ACCEPTED, PB_MASS_INPUT or PB_MASS_TOO_LARGE */
    uint32_t mass;   /* the whole mass of the second; 0 in a refusal */
    size_t place;    /* 0 */
} pb_mass_answer;

/*
 * The CO2 mass of a second in mg, 0 to 100,000, and the NOx mass in ug, 0 to 10,000,000.
 *
 * In this order, each product rounded once to the nearest double: percent times 10,000; dry times
 * the factor; u times that; times the flow; times 1,000 (CO2) or 1,000,000 (NOx). The whole part
 * of the last product is the mass.
 *
 * PB_MASS_INPUT: a kind above 3, or a number that is not finite or out of its range; a negative
 * zero value or flow counts as zero. Then PB_MASS_TOO_LARGE: the mass is above its range.
 */
pb_mass_answer pb_mass_co2(uint8_t kind, double value, pb_setting setting);
pb_mass_answer pb_mass_nox(uint8_t kind, double value, pb_setting setting);

/* ---- the trip stream ---- */

/* What a trip is judged by. */
typedef struct pb_plan {
    uint32_t reference; /* reference CO2 mass in mg: 1 to 20,000,000 */
    uint32_t e1;        /* curve values in mg/km, each 1 to 2,000,000 */
    uint32_t e2;
    uint32_t e3;
    uint8_t lower;    /* tolerances in percent, each 0 to 100: lower, and the upper ones */
    uint8_t urban;
    uint8_t rural;
    uint8_t motorway;
} pb_plan;

/* The kinds of item. */
enum {
    PB_ITEM_PLAN = 0x10,     /* 21 bytes with the kind */
    PB_ITEM_MEASURED = 0x01, /* 15 bytes */
    PB_ITEM_MISSING = 0x02,  /* 1 byte */
    PB_ITEM_CHECK = 0x03     /* 15 bytes */
};

/* The states of a second. */
enum {
    PB_MEASURED = 1, /* all its values were measured */
    PB_MISSING = 2,  /* its values are ignored */
    PB_CHECK = 3     /* instrument check: speed and altitude count, masses do not */
};

/* One item. Only the members of its kind are set, the others are zero. */
typedef struct pb_item_answer {
    uint8_t refusal;  /* 0, PB_UNKNOWN_KIND, PB_CUT_ITEM, PB_PLAN_OUT_OF_RANGE, PB_OUT_OF_RANGE */
    uint8_t kind;     /* the kind byte; 0 in a refusal */
    uint16_t speed;   /* 0.01 km/h: 0 to 25,000 */
    int32_t altitude; /* cm: -50,000 to 500,000 */
    uint32_t co2;     /* mg in the second: 0 to 100,000 */
    uint32_t nox;     /* ug in the second: 0 to 10,000,000 */
    pb_plan plan;
    size_t length; /* bytes of the item with its kind byte; 0 in a refusal */
    size_t place;  /* 0 */
} pb_item_answer;

/*
 * One item from the front of `count` bytes. Refused by PB_UNKNOWN_KIND, then PB_CUT_ITEM (also
 * where count is 0), then PB_PLAN_OUT_OF_RANGE or PB_OUT_OF_RANGE.
 */
pb_item_answer pb_item(const uint8_t *bytes, size_t count);

/* The answer of reading a whole stream. */
typedef struct pb_read_answer {
    uint8_t refusal;
    size_t place; /* byte offset of the first bad item */
    pb_plan plan;
    size_t seconds; /* seconds read, missing ones too */
} pb_read_answer;

/*
 * A whole stream into five lanes: for each second its state and its values, zeros for a missing
 * second. Places beyond the seconds read are left alone.
 *
 * The first bad item counts; within it PB_UNKNOWN_KIND, PB_CUT_ITEM, PB_PLAN_MISPLACED,
 * PB_PLAN_OUT_OF_RANGE or PB_OUT_OF_RANGE, PB_TOO_MANY, PB_LANE_TOO_SHORT. An empty stream is
 * PB_PLAN_MISPLACED at 0. A refused call writes into no lane.
 */
pb_read_answer pb_read(const uint8_t *stream, size_t stream_bytes,
                       uint8_t *states, size_t states_places,
                       uint16_t *speeds, size_t speeds_places,
                       int32_t *altitudes, size_t altitudes_places,
                       uint32_t *co2, size_t co2_places,
                       uint32_t *nox, size_t nox_places);

/* The answer of writing a stream. */
typedef struct pb_write_answer {
    uint8_t refusal;
    size_t place; /* index of the first bad second for PB_OUT_OF_RANGE, else 0 */
    size_t bytes; /* bytes written; 0 in a refusal */
} pb_write_answer;

/*
 * The stream of a plan and a trip's five lanes: the item of the plan, then that of each second.
 * Values of a missing second are not looked at; reading the stream gives zeros there, and otherwise
 * the same plan and lanes. A stream that was read is written byte for byte; the front parts of its
 * lanes are written without its tail (examples/c/trim.c). A trip without seconds, or with missing
 * ones only, is written too. Bytes behind the stream are left alone.
 *
 * Refused by PB_PLAN_OUT_OF_RANGE, PB_LANES_DIFFER, PB_TOO_MANY, PB_OUT_OF_RANGE (a state of any
 * second, or a value of one that is not missing; ranges as in pb_item_answer), PB_LANE_TOO_SHORT
 * (fewer places than this stream has bytes; PB_STREAM_MOST are always enough), in this order; a
 * refused call writes nothing.
 */
pb_write_answer pb_write(pb_plan plan, const uint8_t *states, size_t states_count,
                         const uint16_t *speeds, size_t speeds_count,
                         const int32_t *altitudes, size_t altitudes_count,
                         const uint32_t *co2, size_t co2_count,
                         const uint32_t *nox, size_t nox_count,
                         uint8_t *stream, size_t stream_places);

/* ---- a stream that arrives in blocks ---- */

/*
 * Where the reading of a stream stands between two blocks. Its members are there to be read; a
 * reader that these calls never made is refused.
 *
 * A bad item settles the reader: refusal is its number and at its byte offset; plan and seconds stay
 * as they were read before it, count is 0 and held all zero. More blocks change nothing then, and
 * pb_end answers that refusal.
 */
typedef struct pb_reader {
    uint8_t refusal; /* 0 until a bad item settles the answer */
    pb_plan plan;    /* zeros before it was read */
    size_t seconds;  /* seconds read */
    size_t at;       /* byte offset of the first item that was not read; 0 exactly until the plan
                        was read */
    size_t count;    /* how many bytes of it are held, 0 to 20 */
    uint8_t held[21]; /* these bytes, zeros behind them */
} pb_reader;

/* The answer of feeding a block. */
typedef struct pb_fed {
    uint8_t refusal;  /* 0 or PB_STATE_NOT_REACHED */
    size_t place;     /* 0 */
    pb_reader reader; /* to be handed to the next call; all zero in a refusal */
} pb_fed;

/* The reader before the first block: all zero. */
pb_reader pb_start(void);

/*
 * Feeds a block of any length, cut anywhere. Each second that it completes is written into the next
 * place of each lane: hand the same lanes to every call for one stream. A bad item settles the
 * answer, see reader.refusal; the seconds before it stay written. Refused by PB_STATE_NOT_REACHED,
 * for a reader that these calls never made, with nothing written. So there are two refusals to look
 * at, that of the feed and that of the reader:
 *
 *     pb_fed fed = {PB_ACCEPTED, 0, pb_start()};
 *     while (fed.refusal == 0 && fed.reader.refusal == 0 && (bytes = next(block)) > 0)
 *         fed = pb_feed(fed.reader, block, bytes, states, n, speeds, n, ..);
 *     if (fed.refusal != 0)
 *         return damaged();            // between two calls; fed.reader is as at the start
 *     read = pb_end(fed.reader);       // the refusal that settled the reader, too
 */
pb_fed pb_feed(pb_reader reader, const uint8_t *block, size_t block_bytes,
               uint8_t *states, size_t states_places,
               uint16_t *speeds, size_t speeds_places,
               int32_t *altitudes, size_t altitudes_places,
               uint32_t *co2, size_t co2_places,
               uint32_t *nox, size_t nox_places);

/*
 * The answer at the end of the stream: that of pb_read for all blocks as one stream, or
 * PB_STATE_NOT_REACHED for a reader that these calls never made.
 */
pb_read_answer pb_end(pb_reader reader);

/* ---- the sweep over the kept seconds ---- */

/* Where a sweep stands. It begins with all four zero. */
typedef struct pb_sweep_state {
    uint64_t taken;   /* kept seconds taken */
    uint64_t dropped; /* kept seconds dropped: as many windows are closed */
    uint64_t mass;    /* CO2 of the seconds taken and not dropped, mg */
    uint64_t moves;   /* moves made since the beginning */
} pb_sweep_state;

/* The answer of a run of the sweep. */
typedef struct pb_sweep_answer {
    uint8_t refusal;
    size_t place;         /* index of the first bad mass for PB_OUT_OF_RANGE, else 0 */
    pb_sweep_state state; /* where the sweep stands now */
    uint64_t moves;       /* moves made by this call */
    bool over;            /* whether no move is left */
} pb_sweep_answer;

/*
 * Makes exactly `budget` moves (0 allowed) from `state`, or fewer only because the sweep is over.
 * One move: if the mass reaches the reference, the window is closed, its end is written into the
 * place of its first second (the first kept second is numbered 1), and that second is dropped;
 * otherwise the next kept second is taken; with none left the sweep is over. Only the places of
 * windows closed by this call are written.
 *
 * Refused by PB_PLAN_OUT_OF_RANGE (the reference, mg, 1 to 20,000,000), PB_TOO_MANY,
 * PB_LANE_TOO_SHORT (ends needs a place for each mass), PB_OUT_OF_RANGE (a mass above 100,000 mg),
 * PB_STATE_NOT_REACHED, in this order; a refused call leaves the lane.
 *
 * Kept seconds may be appended to the lane between two calls: the sweep goes on from its state, also
 * where it was over (examples/c/between_samples.c).
 *
 * A call first looks at every mass, and sums those taken and not dropped, whatever the budget. At
 * 8,100 kept seconds this takes about 1 us on the machine of docs/PERFORMANCE.md, as long as 2,000
 * moves: who sweeps a little after each second pays it each time, and a budget of a hundred moves
 * costs hardly more than a budget of one.
 */
pb_sweep_answer pb_sweep(uint32_t reference, const uint32_t *co2, size_t co2_count,
                         uint16_t *ends, size_t ends_places,
                         pb_sweep_state state, uint64_t budget);

/* ---- dynamics ---- */

/* D of one second: the next speed minus the previous one. */
typedef struct pb_acceleration_answer {
    uint8_t refusal;
    bool has_d;    /* false: the second is missing, or one beside it */
    uint16_t rise; /* D is rise - fall, in 0.01 km/h; one of the two is 0 */
    uint16_t fall;
    size_t place; /* index of the first bad second for PB_OUT_OF_RANGE, else 0 */
} pb_acceleration_answer;

/*
 * D of the second `index`, from 0, of a trip's five lanes; before the first and after the last
 * second the speed is 0. Refused by PB_LANES_DIFFER, PB_TOO_MANY, PB_OUT_OF_RANGE, PB_NO_SECOND
 * (no second in state 1 or 3, or the index is past the end), in this order.
 */
pb_acceleration_answer pb_acceleration(const uint8_t *states, size_t states_count,
                                       const uint16_t *speeds, size_t speeds_count,
                                       const int32_t *altitudes, size_t altitudes_count,
                                       const uint32_t *co2, size_t co2_count,
                                       const uint32_t *nox, size_t nox_count, size_t index);

/* The 95th percentile of products. */
typedef struct pb_percentile_answer {
    uint8_t refusal;
    uint64_t q;   /* a hundred times the percentile, interpolated; 0 in a refusal */
    size_t place; /* index of the first bad product for PB_OUT_OF_RANGE, else 0 */
} pb_percentile_answer;

/*
 * Q of products (speed times D, each 0 to 625,000,000) in any order. They are ranked ascending
 * into the lane, one place for each; the rest of the lane is left alone. With M products, j and r
 * the quotient and remainder of 95 M by 100: Q = 100 x(j) + r (x(j+1) - x(j)).
 *
 * Refused by PB_TOO_MANY, PB_TOO_FEW_VALUES (fewer than 100), PB_LANE_TOO_SHORT, PB_OUT_OF_RANGE,
 * in this order; a refused call leaves the lane.
 */
pb_percentile_answer pb_percentile(const uint32_t *products, size_t products_count,
                                   uint32_t *ranks, size_t ranks_places);

/* ---- a whole trip ---- */

/* Seconds taken together. */
typedef struct pb_tally {
    uint32_t seconds;
    uint32_t distance; /* the sum of the speeds, 0.01 km/h: one km is 360,000 */
    uint64_t co2;      /* mg, of seconds in state 1 */
    uint64_t nox;      /* ug, of seconds in state 1 */
} pb_tally;

/* One bin of a trip: urban up to 6,000, rural up to 9,000, motorway above (0.01 km/h). */
typedef struct pb_bin {
    uint32_t seconds;
    uint32_t distance; /* as in pb_tally, and the two masses too */
    uint64_t co2;
    uint64_t nox;
    uint32_t m; /* products that count: seconds with D above 72 */
    uint64_t t; /* their sum */
    uint64_t q; /* a hundred times their 95th percentile; 0 where m is below 100 */
} pb_bin;

/* Windows of a class. */
typedef struct pb_class {
    uint32_t windows;
    uint32_t inside; /* those inside the band */
} pb_class;

/* The answer for a trip. Bins and classes stand in the order urban, rural, motorway. */
typedef struct pb_trip_answer {
    uint8_t refusal;
    size_t place;     /* index of the first bad second for PB_OUT_OF_RANGE, else 0 */
    uint32_t seconds; /* all seconds */
    uint32_t missing;
    uint32_t kept;
    uint32_t windows; /* unclassed ones too */
    uint32_t moves;
    pb_bin bins[3];
    pb_tally total;
    uint64_t climb; /* cm */
    pb_class classes[3];
    /*
     * A bit for each reason, PB_REASON_..; 0 says that the trip is valid. It speaks only where
     * refusal is PB_ACCEPTED: a refused trip was not judged, and its verdict is 0 all the same.
     */
    uint16_t verdict;
} pb_trip_answer;

/*
 * Evaluates a trip from its plan and its five lanes. The four lent lanes need a place per second.
 * Afterwards kept_speeds, kept_co2 hold the kept seconds in order, ends the ends of the windows
 * (first kept second numbered 1) in the places of their first seconds, and ranks the products of
 * the urban, then rural, then motorway bin, each ascending; all other places are left alone.
 *
 * Refused by PB_PLAN_OUT_OF_RANGE, PB_LANES_DIFFER, PB_TOO_MANY, PB_LANE_TOO_SHORT,
 * PB_OUT_OF_RANGE, PB_NO_SECOND, in this order; a refused call writes into no lane.
 */
pb_trip_answer pb_evaluate(pb_plan plan, const uint8_t *states, size_t states_count,
                           const uint16_t *speeds, size_t speeds_count,
                           const int32_t *altitudes, size_t altitudes_count,
                           const uint32_t *co2, size_t co2_count,
                           const uint32_t *nox, size_t nox_count,
                           uint16_t *kept_speeds, size_t kept_speeds_places,
                           uint32_t *kept_co2, size_t kept_co2_places,
                           uint16_t *ends, size_t ends_places,
                           uint32_t *ranks, size_t ranks_places);

#ifdef __cplusplus
}
#endif

#endif
