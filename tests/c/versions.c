/*
 * Sheets of versions 2 and 3 through the C entries: rows that cover part of the month, held to figures worked out by
 * hand; rows that cover all of it, held to version 1; the numbers that speak of version and days. What version 3 alone
 * has is in columns.c.
 */
#include <string.h>

#include "capacity.h"
#include "example.h"
#include "expect.h"
#include "month.h"

/* ---------------------------------------------------------------- rows inside the month */

/*
 * Both consumers have a contract of 100.0, the peaks are 126.0 and 105.0. S is 100.0 + 10.0, by full volumes, so 5.0
 * are cut from row 0. After the cut T is 95.0 and S 105.0.
 *
 * k1: outside use in the hours 17 to 22 is 19.5 on average in days 1 to 15 and 0 after them; 11 of the 22 control days
 * are among the first, so the average is 9.75. Nothing is deductible, n 2.0: 1 - 2.0 x 9.75 / 95.0 = 0.794737.
 * k4: in days 1 to 15 m is 88.0 and 105.0 in turn, 96.5 on average, and working power reaches 88.0 and 44.0 of it,
 * 66.0; after them all 66.0 are reached: (66.0 + 66.0) / (96.5 + 66.0) = 0.812308. The other coefficients are 1.
 *
 * Row 0: 95.0 x 0.794737 = 75.500015, x 0.812308 = 61.329266, x 19 / 30 = 38.841868, rounded 38.8.
 * Row 1: 10.0 x 0.794737 = 7.94737, x 0.812308 = 6.455712, x 15 / 30 = 3.227856, rounded 3.2, the credit of consumer 0.
 * Consumer 0: 126.0 - 3.2 = 122.8, 17.8 above 105.0, n 1.3: 100.0 + 1.3 x (17.8 - 5.0) = 116.64, rounded 116.6.
 */
static const uint8_t settled_inside[RESULT] = {
    0, 0, 0, RESULT, 1,                                         /* length, version */
    0, 0, 3, 182, 0, 0, 1, 132, 0, 0, 0, 0, 0, 59, 52, 64,      /* 95.0, 38.8, 3,880,000 tiyn */
    0, 0, 0, 100, 0, 0, 0, 32, 0, 0, 0, 0, 0, 4, 226, 0,        /* 10.0, 3.2, 320,000 tiyn */
    0, 0, 0, 32, 0, 0, 0, 178, 13,                              /* credit 3.2, p 17.8, n 1.3 */
    0, 0, 0, 0, 0, 0, 4, 142, 0, 0, 0, 0, 0, 177, 234, 224,     /* 116.6, 11,660,000 tiyn */
    0, 0, 0, 0, 0, 0, 0, 0, 0,                                  /* no credit, no excess */
    0, 0, 0, 0, 0, 0, 3, 232, 0, 0, 0, 0, 0, 152, 150, 128,     /* 100.0, 10,000,000 tiyn */
    0, 0, 0, 0, 0, 64, 22, 64, 0, 0, 0, 0, 1, 74, 129, 96,      /* paid 4,200,000, charged 21,660,000 tiyn */
};

/* Under the text of 2015 hours and rows have no part: 26.00 percent above 100.0, and 5.00. */
static const uint8_t settled_inside_2015[RESULT_2015] = {
    0, 0, 0, RESULT_2015,
    15, 0, 0, 0, 0, 0, 0, 5, 220, 0, 0, 0, 0, 0, 228, 225, 192, /* 1.5, 150.0, 15,000,000 tiyn */
    10, 0, 0, 0, 0, 0, 0, 3, 232, 0, 0, 0, 0, 0, 152, 150, 128, /* 1.0, 100.0, 10,000,000 tiyn */
};

typedef int64_t settlement(const uint8_t *, size_t, uint8_t *, size_t);
typedef int64_t change(uint8_t *, size_t, const uint8_t *, size_t);

static void check_settled(const char *what, uint8_t version, settlement *by, const uint8_t *wanted, size_t count)
{
    size_t length = fill_month(month, version, inside, members_after);
    memset(result, UNTOUCHED, sizeof result);
    expect_answer(what, by(month, length, result, sizeof result), (int64_t)count);
    expect_bytes(what, result, wanted, count);
    expect_untouched(what, result, count, sizeof result);
}

/* A list, or a record, makes the month with the consumers of one sheet the month with those of members_after. */
static void check_changed(const char *what, uint8_t version, change *by, const uint8_t *before, const uint8_t *given,
                          size_t given_length)
{
    size_t length = fill_month(month, version, inside, before);
    fill_month(other, version, inside, members_after);
    expect_answer(what, by(month, length, given, given_length), 0);
    expect_bytes(what, month, other, length);
}

static void check_inside(uint8_t version)
{
    uint8_t record[RECORD];
    fill_record(record);
    check_settled("rows inside the month", version, capacity_settle, settled_inside, RESULT);
    check_settled("rows inside the month, text of 2015", version, capacity_settle_2015, settled_inside_2015,
                  RESULT_2015);
    check_changed("list on rows with days", version, capacity_transfer, members, list, sizeof list);
    check_changed("record on rows with days", version, capacity_average, members_unmeasured, record, sizeof record);
}

/* ---------------------------------------------------------------- rows of the whole month */

/* The month in this version has the same result as in version 1, of so many bytes. */
static void check_whole(const char *what, uint8_t version, settlement *by, size_t count)
{
    uint8_t result_1[CAPACITY_LARGEST_RESULT];
    size_t length_1 = fill_month(other, 1, NULL, members_after);
    size_t length = fill_month(month, version, whole, members_after);
    expect_answer(what, by(other, length_1, result_1, sizeof result_1), (int64_t)count);
    expect_answer(what, by(month, length, result, sizeof result), (int64_t)count);
    expect_bytes(what, result, result_1, count);
}

/* ---------------------------------------------------------------- numbers */

/* The month where row 1 has these days. */
static size_t fill_last_row(uint8_t version, uint8_t first, uint8_t last)
{
    const uint8_t days[ROWS][ROW_DAYS] = {{10, 28}, {first, last}};
    return fill_month(month, version, days, members_after);
}

static void check_days(uint8_t version)
{
    static const uint8_t accepted[][ROW_DAYS] = {{1, 1}, {DAYS, DAYS}, {1, DAYS}};
    static const uint8_t refused[][ROW_DAYS] = {{0, DAYS}, {0, 0}, {15, 14}, {1, DAYS + 1}, {DAYS + 1, DAYS + 1}};
    for (size_t i = 0; i < sizeof accepted / sizeof accepted[0]; i++)
        expect_answer("days of the month", settle(fill_last_row(version, accepted[i][0], accepted[i][1])), RESULT);
    for (size_t i = 0; i < sizeof refused / sizeof refused[0]; i++)
        expect_refused("days not of the month", fill_last_row(version, refused[i][0], refused[i][1]),
                       -CAPACITY_BAD_DAYS);
}

/* z 0.9 in the last consumer comes before a day 0. */
static void check_order(uint8_t version)
{
    size_t length = fill_last_row(version, 0, DAYS);
    month[length - CONSUMERS / 2 + Z] = 9;
    expect_refused("z and days", length, -CAPACITY_BAD_FACTOR);
}

/* The month in a version that states another. */
static void check_stated(uint8_t filled, uint8_t stated, int64_t wanted)
{
    size_t length = fill_month(month, filled, whole, members_after);
    month[4] = stated;
    expect_refused("another version than the rows have", length, wanted);
}

static void check_versions(void)
{
    for (uint8_t filled = 1; filled <= 3; filled++) {
        check_stated(filled, 0, -CAPACITY_OTHER_VERSION);
        check_stated(filled, 4, -CAPACITY_OTHER_VERSION);
        check_stated(filled, 255, -CAPACITY_OTHER_VERSION);
    }
    check_stated(1, 2, -CAPACITY_LENGTH_OFF);
    check_stated(1, 3, -CAPACITY_LENGTH_OFF);
    check_stated(2, 1, -CAPACITY_LENGTH_OFF);
    check_stated(3, 1, -CAPACITY_LENGTH_OFF);
}

int main(void)
{
    for (uint8_t version = 2; version <= 3; version++) {
        check_inside(version);
        check_whole("the month as in version 1", version, capacity_settle, RESULT);
        check_whole("the month as in version 1, text of 2015", version, capacity_settle_2015, RESULT_2015);
        check_days(version);
        check_order(version);
    }
    check_versions();
    if (wrong)
        return 1;
    puts("C versions: ok");
    return 0;
}
