/*
 * A month with hours and rows in each version of a sheet, and what the entries answer to it; for versions.c and
 * columns.c.
 */
#ifndef MONTH_H
#define MONTH_H

#include <string.h>

#include "capacity.h"
#include "example.h"
#include "expect.h"

enum {
    HEADER = 14, PRODUCER = 42, DAYS = 30, HOURS = 24 * DAYS, POWERS = 3, POWER = 4, COLUMN = HOURS * POWER,
    ROWS = 2, ROW = 10, ROW_DAYS = 2, CONSUMERS = 2 * 15, Z = 10,
    LONGEST = HEADER + PRODUCER + POWERS * COLUMN + ROWS * (ROW + ROW_DAYS) + CONSUMERS,
    RESULT = 21 + 16 * ROWS + 25 * 2, RESULT_2015 = 4 + 17 * 2
};

/* ---------------------------------------------------------------- its bytes */

/* 30 days from a Monday, one producer, two rows, two consumers. Length and version are filled in. */
static const uint8_t header[HEADER] = {0, 0, 0, 0, 0, DAYS, 1, 0, 0, 0, 0, 1, ROWS, 2};

/* Attested 105.0, nothing deductible, no own needs, no missing hours, every given coefficient 1. */
static const uint8_t producer[PRODUCER] = {
    0, 0, 4, 26, 0, 0, 0, 0, 0, 0, 0, 0, 0, 0, 0, 0, 0, 0,
    0, 15, 66, 64, 0, 15, 66, 64, 0, 15, 66, 64, 0, 15, 66, 64, 0, 15, 66, 64, 0, 15, 66, 64,
};

/* The powers of an hour, in the order in which they stand in a sheet. */
enum { WORKING, POSSIBLE, OUTSIDE };

/*
 * A power in tenths of a megawatt; hour 0 is the first of day 1.
 *
 * Days 1 to 15: in even hours 110.0 working and 88.0 possible, in odd ones 44.0 and 110.0; outside use in megawatts is
 * the hour of the day, 0.0 to 23.0. Days 16 to 30: 110.0 working, 66.0 possible, no outside use.
 */
static inline uint32_t power_of(int which, int hour)
{
    int late = hour >= HOURS / 2, odd = hour % 2;
    switch (which) {
    case WORKING:
        return late || !odd ? 1100 : 440;
    case POSSIBLE:
        return late ? 660 : odd ? 1100 : 880;
    default:
        return late ? 0 : 10 * (uint32_t)(hour % 24);
    }
}

/* 100.0 to the single buyer and 10.0 to consumer 0, at 100,000 tiyn. */
static const uint8_t rows[ROWS][ROW] = {
    {0, 255, 0, 0, 3, 232, 0, 1, 134, 160},
    {0, 0, 0, 0, 0, 100, 0, 1, 134, 160},
};

static const uint8_t inside[ROWS][ROW_DAYS] = {{10, 28}, {1, 15}};
static const uint8_t whole[ROWS][ROW_DAYS] = {{1, DAYS}, {1, DAYS}};

static inline uint8_t *append(uint8_t *at, const uint8_t *bytes, size_t count)
{
    memcpy(at, bytes, count);
    return at + count;
}

static inline uint8_t *append_power(uint8_t *at, uint32_t power)
{
    for (int shift = 24; shift >= 0; shift -= 8)
        *at++ = (uint8_t)(power >> shift);
    return at;
}

/* Hour by hour, the three powers of each. */
static inline uint8_t *append_hours(uint8_t *at)
{
    for (int hour = 0; hour < HOURS; hour++)
        for (int which = 0; which < POWERS; which++)
            at = append_power(at, power_of(which, hour));
    return at;
}

/* A column for each power, with all hours. */
static inline uint8_t *append_columns(uint8_t *at)
{
    for (int which = 0; which < POWERS; which++)
        for (int hour = 0; hour < HOURS; hour++)
            at = append_power(at, power_of(which, hour));
    return at;
}

/* The month in a version, with these days but in version 1, and the consumers of a sheet of example.h; its length. */
static inline size_t fill_month(uint8_t *month, uint8_t version, const uint8_t days[ROWS][ROW_DAYS],
                                const uint8_t *example)
{
    uint8_t *at = append(append(month, header, HEADER), producer, PRODUCER);
    at = version == 3 ? append_columns(at) : append_hours(at);
    for (int i = 0; i < ROWS; i++) {
        at = append(at, rows[i], ROW);
        if (version != 1)
            at = append(at, days[i], ROW_DAYS);
    }
    size_t length = (size_t)(append(at, example + HEADER, CONSUMERS) - month);
    month[2] = (uint8_t)(length / 256);
    month[3] = (uint8_t)(length % 256);
    month[4] = version;
    return length;
}

/* ---------------------------------------------------------------- the entries with it */

static uint8_t month[LONGEST], other[LONGEST], result[CAPACITY_LARGEST_RESULT];

/* With its first bytes, so many. */
static inline int64_t settle(size_t length)
{
    return capacity_settle(month, length, result, sizeof result);
}

static inline int64_t settle_2015(size_t length)
{
    return capacity_settle_2015(month, length, result, sizeof result);
}

/* A list and a record of no bytes: the sheet's numbers come first. */
static inline int64_t transfer(size_t length)
{
    return capacity_transfer(month, length, list, 0);
}

static inline int64_t average(size_t length)
{
    return capacity_average(month, length, list, 0);
}

/* Every entry turns the month down with this number, and neither it nor the result buffer changes. */
static inline void expect_refused(const char *what, size_t length, int64_t wanted)
{
    static int64_t (*const entries[])(size_t) = {settle, settle_2015, transfer, average};
    memcpy(other, month, length);
    memset(result, UNTOUCHED, sizeof result);
    for (size_t i = 0; i < sizeof entries / sizeof entries[0]; i++) {
        expect_answer(what, entries[i](length), wanted);
        expect_bytes(what, month, other, length);
        expect_untouched(what, result, 0, sizeof result);
    }
}

#endif
