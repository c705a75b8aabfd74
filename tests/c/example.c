/*
 * Settles document 01's example sheet through the C entries, also under the text of 2015, applies a list of transfers
 * to another, and writes a complex's peak into that. Every byte of a buffer that a call may write to is checked
 * afterwards.
 */
#include <stdio.h>
#include <string.h>

#include "capacity.h"
#include "example.h"
#include "expect.h"

/* An entry that settles, with its result of the example sheet. */
struct settlement {
    const char *name;
    int64_t (*settle)(const uint8_t *, size_t, uint8_t *, size_t);
    const uint8_t *expected;
    size_t length;
};

static const struct settlement settlements[] = {
    {"example sheet", capacity_settle, expected, sizeof expected},
    {"example sheet under the text of 2015", capacity_settle_2015, expected_2015, sizeof expected_2015},
};

/*
 * The last bytes of the sheet, settled into this room; of none the pointer leads to no byte that may be read. The
 * buffer has more bytes, so that a write past it is seen.
 */
static void check_settled(const struct settlement *by, size_t sheet_length, size_t room, int64_t wanted)
{
    uint8_t buffer[CAPACITY_LARGEST_RESULT + 1];
    char what[100];
    snprintf(what, sizeof what, "%s, %zu bytes of it, room of %zu bytes", by->name, sheet_length, room);
    memset(buffer, UNTOUCHED, sizeof buffer);
    expect_answer(what, by->settle(sheet + sizeof sheet - sheet_length, sheet_length, buffer, room), wanted);
    size_t written = wanted < 0 ? 0 : by->length;
    expect_bytes(what, buffer, by->expected, written);
    expect_untouched(what, buffer, written, sizeof buffer);
}

/* In more room than is needed, in as much, in one byte less and in none; and a sheet of no bytes. */
static void check_settlements(void)
{
    for (size_t i = 0; i < sizeof settlements / sizeof settlements[0]; i++) {
        const struct settlement *by = &settlements[i];
        check_settled(by, sizeof sheet, CAPACITY_LARGEST_RESULT, (int64_t)by->length);
        check_settled(by, sizeof sheet, by->length, (int64_t)by->length);
        check_settled(by, sizeof sheet, by->length - 1, -CAPACITY_SHORT_BUFFER);
        check_settled(by, sizeof sheet, 0, -CAPACITY_SHORT_BUFFER);
        check_settled(by, 0, CAPACITY_LARGEST_RESULT, -CAPACITY_NO_HEADER);
    }
}

/* The figures that the reader takes from the result under the text of 2015. */
static void check_line_2015(void)
{
    struct capacity_line_2015 line = capacity_read_2015(expected_2015, 0);
    if (line.factor != 15 || line.volume != 1500 || line.charge != 15000000) {
        printf("text of 2015: factor %d, volume %llu, charge %llu\n", line.factor,
               (unsigned long long)line.volume, (unsigned long long)line.charge);
        wrong = 1;
    }
}

/* ---------------------------------------------------------------- transfers */

/* A sheet to be changed in place, with a byte before it and one behind it. */
static uint8_t lent[1 + sizeof members + 1];

static void lend(const uint8_t *from)
{
    memset(lent, UNTOUCHED, sizeof lent);
    memcpy(lent + 1, from, sizeof members);
}

static int64_t transfer(size_t sheet_length, const uint8_t *transfers, size_t list_length)
{
    lend(members);
    return capacity_transfer(lent + 1, sheet_length, transfers, list_length);
}

static void expect_lent(const char *what, const uint8_t *wanted)
{
    expect_untouched(what, lent, 0, 1);
    expect_bytes(what, lent + 1, wanted, sizeof members);
    expect_untouched(what, lent, 1 + sizeof members, sizeof lent);
}

static void expect_consumer(const uint8_t *result, size_t consumer, uint64_t volume, uint64_t charge)
{
    struct capacity_consumer_line line = capacity_read_consumer(result, 0, consumer);
    if (line.volume != volume || line.charge != charge) {
        printf("consumer %zu of the changed sheet: volume %llu, charge %llu\n", consumer,
               (unsigned long long)line.volume, (unsigned long long)line.charge);
        wrong = 1;
    }
}

/* The changed sheet is settled with both contract volumes of 100.0 and peaks of 126.0 and 105.0. */
static void expect_settled(const char *what)
{
    uint8_t result[CAPACITY_LARGEST_RESULT];
    expect_lent(what, members_after);
    expect_answer(what, capacity_settle(lent + 1, sizeof members, result, sizeof result), 71);
    expect_consumer(result, 0, 1240, 12400000);
    expect_consumer(result, 1, 1000, 10000000);
}

/* The list is applied in place. */
static void check_applied_and_settled(void)
{
    expect_answer("list", transfer(sizeof members, list, sizeof list), 0);
    expect_settled("sheet after the list");
}

/* A list of no entries changes nothing. */
static void check_empty_list(void)
{
    static const uint8_t empty[CAPACITY_LIST_FRONT] = {0, 0, 0, CAPACITY_LIST_FRONT, 1};
    expect_answer("list of no entries", transfer(sizeof members, empty, sizeof empty), 0);
    expect_lent("list of no entries", members);
}

/* The list with one byte changed is turned down, and the sheet keeps every byte. */
static void check_changed(const char *what, size_t at, uint8_t byte, int64_t wanted)
{
    uint8_t changed[sizeof list];
    memcpy(changed, list, sizeof list);
    changed[at] = byte;
    expect_answer(what, transfer(sizeof members, changed, sizeof changed), wanted);
    expect_lent(what, members);
}

static void check_bad_lists(void)
{
    check_changed("length field 13", 3, 13, -CAPACITY_BAD_LIST);
    check_changed("list version 2", 4, 2, -CAPACITY_BAD_LIST);
    check_changed("day 0", 5, 0, -CAPACITY_BAD_LIST);
    check_changed("day 32", 5, 32, -CAPACITY_BAD_LIST);
    check_changed("giver 2 of 2", 6, 2, -CAPACITY_BAD_LIST);
    check_changed("taker 0, as the giver", 7, 0, -CAPACITY_BAD_LIST);
    expect_answer("list of 11 bytes", transfer(sizeof members, list, sizeof list - 1), -CAPACITY_BAD_LIST);
    expect_lent("list of 11 bytes", members);
    expect_answer("list of no bytes", transfer(sizeof members, list + sizeof list, 0), -CAPACITY_BAD_LIST);
    expect_lent("list of no bytes", members);
    check_changed("day 21", 5, 21, -CAPACITY_FILED_LATE);
    check_changed("an amount of 66,036 tenths", 9, 1, -CAPACITY_OVERDRAWN);
}

/* The first of two entries could be met, the second not: the first is not applied either. */
static void check_second_unmet(void)
{
    static const uint8_t two[CAPACITY_LIST_FRONT + 2 * CAPACITY_LIST_ENTRY] = {
        0, 0, 0, 19, 1,
        1, 0, 1, 0, 0, 5, 220, /* all that consumer 0 has */
        2, 0, 1, 0, 0, 0, 1,
    };
    expect_answer("second entry unmet", transfer(sizeof members, two, sizeof two), -CAPACITY_OVERDRAWN);
    expect_lent("second entry unmet", members);
}

/* The sheet's own numbers come first, whatever the list is. */
static void check_bad_sheet_first(void)
{
    expect_answer("sheet of 43 bytes, no list", transfer(sizeof members - 1, list, 0), -CAPACITY_WRONG_LENGTH);
    expect_lent("sheet of 43 bytes, no list", members);
    expect_answer("sheet and list of no bytes", transfer(0, list, 0), -CAPACITY_NO_HEADER);
    expect_lent("sheet and list of no bytes", members);
}

/* ---------------------------------------------------------------- a complex */

static uint8_t complex_record[RECORD];

static int64_t average(size_t sheet_length, size_t record_length)
{
    lend(members_unmeasured);
    return capacity_average(lent + 1, sheet_length, complex_record, record_length);
}

/* The peak is written in place. */
static void check_taken_and_settled(void)
{
    fill_record(complex_record);
    expect_answer("record", average(sizeof members, RECORD), 0);
    expect_settled("sheet with the complex's peak");
}

/* The record with one byte changed is turned down, and the sheet keeps every byte. */
static void check_changed_record(const char *what, size_t at, uint8_t byte, int64_t wanted)
{
    fill_record(complex_record);
    complex_record[at] = byte;
    expect_answer(what, average(sizeof members, RECORD), wanted);
    expect_lent(what, members_unmeasured);
}

static void check_bad_records(void)
{
    check_changed_record("length field one more", 3, RECORD % 256 + 1, -CAPACITY_BAD_RECORD);
    check_changed_record("consumer 2 of 2", 4, 2, -CAPACITY_BAD_RECORD);
    check_changed_record("13,127.2 MW imported", 6, 2, -CAPACITY_HIGH_POWER);
    check_changed_record("13,283.2 MW drawn in the first hour", 10, 2, -CAPACITY_HIGH_POWER);
    check_changed_record("13,137.2 MW sent out in the last hour", RECORD - 3, 2, -CAPACITY_HIGH_POWER);
    fill_record(complex_record);
    expect_answer("record of a byte less", average(sizeof members, RECORD - 1), -CAPACITY_BAD_RECORD);
    expect_lent("record of a byte less", members_unmeasured);
    expect_answer("record of no bytes", average(sizeof members, 0), -CAPACITY_BAD_RECORD);
    expect_lent("record of no bytes", members_unmeasured);
    expect_answer("sheet of 43 bytes, no record", average(sizeof members - 1, 0), -CAPACITY_WRONG_LENGTH);
    expect_lent("sheet of 43 bytes, no record", members_unmeasured);
}

int main(void)
{
    check_settlements();
    check_line_2015();
    check_applied_and_settled();
    check_empty_list();
    check_bad_lists();
    check_second_unmet();
    check_bad_sheet_first();
    check_taken_and_settled();
    check_bad_records();
    if (wrong)
        return 1;
    puts("C example: ok");
    return 0;
}
