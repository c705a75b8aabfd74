/*
 * Hours as columns, in sheets of version 3, through the C entries: hours that stand otherwise give another result, and
 * every column is tried to its last hour. versions.c holds the month's result to figures worked out by hand.
 */
#include <string.h>

#include "capacity.h"
#include "example.h"
#include "expect.h"
#include "month.h"

/* The month's result. */
static uint8_t settled[RESULT];

static size_t fill_in(uint8_t version)
{
    return fill_month(month, version, inside, members_after);
}

static uint8_t *column(int which)
{
    return month + HEADER + PRODUCER + which * COLUMN;
}

static void settle_month(void)
{
    expect_answer("hours as columns", settle(fill_in(3)), RESULT);
    memcpy(settled, result, RESULT);
}

/* ---------------------------------------------------------------- hours that stand otherwise */

/* The month as it is now is settled with another result, or turned down. */
static void expect_other(const char *what)
{
    if (settle(LONGEST) == RESULT && memcmp(result, settled, RESULT) == 0) {
        printf("%s: the result is the same\n", what);
        wrong = 1;
    }
}

/* The hours of one version under the other's number: the lengths are the same, so it is settled. */
static void check_stated(uint8_t filled, uint8_t stated)
{
    size_t length = fill_in(filled);
    month[4] = stated;
    expect_answer("another version than the hours have", settle(length), RESULT);
    expect_other("another version than the hours have");
}

static void check_exchanged(int one, int another)
{
    static uint8_t kept[COLUMN];
    fill_in(3);
    memcpy(kept, column(one), COLUMN);
    memcpy(column(one), column(another), COLUMN);
    memcpy(column(another), kept, COLUMN);
    expect_other("columns exchanged");
}

/* What stands in a column so many bytes further on. A byte further on a power is above the ceiling: refused by 9. */
static void check_late(int which, size_t bytes)
{
    fill_in(3);
    memmove(column(which), column(which) + bytes, COLUMN - bytes);
    expect_other("a column begun late");
}

static void check_otherwise(void)
{
    check_stated(2, 3);
    check_stated(3, 2);
    check_exchanged(WORKING, POSSIBLE);
    check_exchanged(POSSIBLE, OUTSIDE);
    check_exchanged(WORKING, OUTSIDE);
    for (int which = 0; which < POWERS; which++) {
        check_late(which, 1);
        check_late(which, POWER);
    }
}

/* ---------------------------------------------------------------- numbers */

static size_t fill_power(int which, int hour, uint32_t power)
{
    size_t length = fill_in(3);
    append_power(column(which) + hour * POWER, power);
    return length;
}

/* 10,000.0 is a power, a tenth more is none. */
static void check_power(int which, int hour)
{
    expect_answer("power of 10,000.0", settle(fill_power(which, hour, 100000)), RESULT);
    expect_refused("power above 10,000.0", fill_power(which, hour, 100001), -CAPACITY_HIGH_FIGURE);
}

/* A power above 10,000.0 in the last hour of the last column comes before a row that begins on day 0. */
static void check_order(void)
{
    size_t length = fill_power(OUTSIDE, HOURS - 1, 100001);
    column(POWERS)[ROW] = 0;
    expect_refused("power and days", length, -CAPACITY_HIGH_FIGURE);
    append_power(column(OUTSIDE) + (HOURS - 1) * POWER, 0);
    expect_refused("days behind columns", length, -CAPACITY_BAD_DAYS);
}

int main(void)
{
    settle_month();
    check_otherwise();
    for (int which = 0; which < POWERS; which++) {
        check_power(which, 0);
        check_power(which, HOURS - 1);
    }
    check_order();
    if (wrong)
        return 1;
    puts("C columns: ok");
    return 0;
}
