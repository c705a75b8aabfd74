/* What the settlement and the requests in C share: the sheet's bytes, its header, numbers that all try in one way. */
#ifndef BENCH_SHEET_H
#define BENCH_SHEET_H

#include <stdbool.h>
#include <stddef.h>
#include <stdint.h>
#include <string.h>

enum {
    HEADER = 14, PRODUCER = 42, POWER = 4, HOUR = 3 * POWER, DAY = 24 * HOUR, ROW = 10, DAY_ROW = 12, CONSUMER = 15,
    MOST_PRODUCERS = 6, MOST_ROWS = 32, MOST_CONSUMERS = 32, MOST_HOURS = 24 * 31,
    TOP_CAPACITY = 100000, TOP_PRICE = 200000000, ONE = 1000000,
    SINGLE_BUYER = 255, LOWEST_Z = 10, TOP_Z = 100
};

/* ---------------------------------------------------------------- bytes */

static inline uint32_t load2(const uint8_t *at)
{
    return (uint32_t)at[0] << 8 | at[1];
}

static inline uint32_t load4(const uint8_t *at)
{
    uint32_t x;
    memcpy(&x, at, sizeof x);
    return __builtin_bswap32(x);
}

static inline uint64_t load8(const uint8_t *at)
{
    uint64_t x;
    memcpy(&x, at, sizeof x);
    return __builtin_bswap64(x);
}

static inline void store4(uint8_t *at, uint32_t x)
{
    x = __builtin_bswap32(x);
    memcpy(at, &x, sizeof x);
}

static inline void store8(uint8_t *at, uint64_t x)
{
    x = __builtin_bswap64(x);
    memcpy(at, &x, sizeof x);
}

/* ---------------------------------------------------------------- numbers */

/* a less b, not below 0. */
static inline uint32_t less(uint32_t a, uint32_t b)
{
    return a > b ? a - b : 0;
}

/* a / b to the nearest whole, a half upward. */
static inline uint32_t nearest4(uint32_t a, uint32_t b)
{
    return (2 * a + b) / (2 * b);
}

/* ---------------------------------------------------------------- powers */

/* Bytes as the machine has them, the first lowest. */
static inline uint32_t raw4(const uint8_t *at)
{
    uint32_t x;
    memcpy(&x, at, sizeof x);
    return x;
}

static inline uint64_t raw8(const uint8_t *at)
{
    uint64_t x;
    memcpy(&x, at, sizeof x);
    return x;
}

/*
 * The bits that some power has, of days of this width: a producer's is 18 times four powers, a complex's 12 times, and
 * gcc joins four at once. A producer's powers can stand in any order, as triples or as columns.
 */
static inline uint32_t joined(const uint8_t *at, uint32_t days, int day)
{
    uint64_t bits[2] = {0, 0};
    for (const uint8_t *end = at + (size_t)day * days; at != end; at += day)
        for (int two = 0; two < 2; two++) {
            uint64_t of_day = 0;
#pragma GCC unroll 18
            for (int i = 0; i < day; i += 16)
                of_day |= raw8(at + 8 * two + i);
            bits[two] |= of_day;
        }
    uint64_t both = bits[0] | bits[1];
    return __builtin_bswap32((uint32_t)both | (uint32_t)(both >> 32));
}

/*
 * Has bit 8 where a power below 2^17 is above the ceiling, 65,536 + 34,464. A power of the bytes 0, b, c, d is 256 b +
 * 65,536 c + 16,777,216 d to the machine, and the sum below is 256 (256 c + d + b) + c. It is above the ceiling where b
 * is 1 and the sum at least 256 (34,464 + 2).
 */
static inline uint32_t over_ceiling(uint32_t x)
{
    uint32_t front = x & 0xFFFFFF;
    int32_t sum = (int32_t)(front + (x >> 16));
    return -(uint32_t)(sum >= 256 * (TOP_CAPACITY - (1 << 16) + 2)) & front;
}

/* Whether a power is above the ceiling, where all are below 2^17. */
static inline bool above(const uint8_t *at, uint32_t days, int day)
{
    uint32_t bits[4] = {0, 0, 0, 0};
    for (; days != 0; days--, at += day)
        for (int one = 0; one < 4; one++) {
            uint32_t of_day = 0;
#pragma GCC unroll 18
            for (int i = 0; i < day; i += 16)
                of_day |= over_ceiling(raw4(at + 4 * one + i));
            bits[one] |= of_day;
        }
    return ((bits[0] | bits[1] | bits[2] | bits[3]) & 256) != 0;
}

/* Whether a power is above the ceiling. They are looked at one by one only if some has bit 16. */
static inline bool high_powers(const uint8_t *at, uint32_t days, int day)
{
    uint32_t bits = joined(at, days, day);
    return bits >= 1 << 17 || (bits >= 1 << 16 && above(at, days, day));
}

/* ---------------------------------------------------------------- the header */

struct header {
    uint32_t days, hours, producers, rows, consumers;
    uint32_t control_days;      /* lowest bit for day 1 */
    const uint8_t *producer;    /* the first of each */
    const uint8_t *row;
    const uint8_t *consumer;
    size_t producer_width;
    size_t row_width;           /* ROW in version 1, DAY_ROW from version 2 on */
    bool columns;               /* version 3: a producer's hours stand as three columns, else as triples */
};

/* Mondays to Fridays of a month that begins on a Monday. */
#define WEEKDAYS (UINT64_C(0x1F) * (1 | 1 << 7 | 1 << 14 | 1 << 21 | UINT64_C(1) << 28 | UINT64_C(1) << 35))

/* Numbers 1 to 6; 0 where none applies, and then the header is filled. */
static inline int read_header(struct header *h, const uint8_t *sheet, size_t length)
{
    if (length < HEADER)
        return 1;
    if (load4(sheet) != length)
        return 2;
    uint32_t version = sheet[4];
    if (version < 1 || version > 3)
        return 3;
    uint32_t days = sheet[5], weekday = sheet[6], holidays = load4(sheet + 7);
    if (days < 28 || days > 31 || weekday < 1 || weekday > 7 || holidays >> days != 0)
        return 4;
    uint32_t producers = sheet[11], rows = sheet[12], consumers = sheet[13];
    if (producers > MOST_PRODUCERS || rows > MOST_ROWS || consumers > MOST_CONSUMERS)
        return 5;
    h->producer_width = PRODUCER + DAY * days;
    h->row_width = version == 1 ? ROW : DAY_ROW;
    h->columns = version == 3;
    h->producer = sheet + HEADER;
    size_t rows_at = HEADER + producers * h->producer_width, consumers_at = rows_at + h->row_width * rows;
    if (length != consumers_at + CONSUMER * consumers)
        return 6;
    h->row = sheet + rows_at;
    h->consumer = sheet + consumers_at;
    h->days = days;
    h->hours = 24 * days;
    h->producers = producers;
    h->rows = rows;
    h->consumers = consumers;
    h->control_days = (uint32_t)(WEEKDAYS >> (weekday - 1)) & ((UINT32_C(1) << days) - 1) & ~holidays;
    return 0;
}

/* ---------------------------------------------------------------- the figures */

/* What is wrong somewhere in the sheet, numbers 9 to 12. */
struct faults {
    bool high, reference, dear, factor;
};

/* Whether the rows state their days, the first at place 10 and the last at 11. */
static inline bool states_days(const struct header *h)
{
    return h->row_width == DAY_ROW;
}

/* Number 8, over all producers. */
static inline bool bad_share(const struct header *h)
{
    bool bad = false;
    const uint8_t *at = h->producer;
    for (uint32_t p = 0; p < h->producers; p++, at += h->producer_width) {
        for (int i = 12; i < 18; i += 2)
            bad |= load2(at + i) > h->hours;
        for (int i = 18; i < PRODUCER; i += 4)
            bad |= load4(at + i) > ONE;
    }
    return bad;
}

/* Numbers 9, 11 and 12 of the consumers. */
static inline void read_consumers(const struct header *h, struct faults *f)
{
    const uint8_t *at = h->consumer;
    for (uint32_t c = 0; c < h->consumers; c++, at += CONSUMER) {
        f->high |= (load4(at) > TOP_CAPACITY) | (load4(at + 4) > TOP_CAPACITY);
        f->factor |= (at[8] > h->days) | (at[9] > h->days) | (at[10] < LOWEST_Z) | (at[10] > TOP_Z);
        f->dear |= load4(at + 11) > TOP_PRICE;
    }
}

/* Number 18, over all rows. */
static inline bool bad_days(const struct header *h)
{
    if (!states_days(h))
        return false;
    bool bad = false;
    const uint8_t *at = h->row;
    for (uint32_t j = 0; j < h->rows; j++, at += DAY_ROW)
        bad |= (at[10] < 1) | (at[11] < at[10]) | (at[11] > h->days);
    return bad;
}

/* The first of the numbers 10, 11, 12 and 18 that applies, where 9 does not; 0 where none does. */
static inline int later_refusal(const struct header *h, const struct faults *f)
{
    return f->reference ? 10 : f->dear ? 11 : f->factor ? 12 : bad_days(h) ? 18 : 0;
}

#endif
