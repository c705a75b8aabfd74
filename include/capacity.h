/*
 * Monthly capacity settlement: the module's entries for C.
 *
 * capacity_settle        settles a month's sheet into a result
 * capacity_transfer      applies a list of transfers to the contract volumes in a sheet, before it is settled
 * capacity_average       writes the peak of an industrial complex, by averaging, into a sheet, before it is settled
 * capacity_settle_2015   settles a sheet's consumers under the text of 2015, for old acts, into a result of its own
 *
 * capacity_transfer and capacity_average change the sheet in place. They may be called in either order, or not at all.
 *
 * Buffers. The caller owns them. A call takes two: the one declared const is only read, the other is written to. It
 * keeps neither pointer after it returns. Nothing is allocated, and no state is kept from one call to the next. Each
 * pointer is to lead to as many bytes as the length after it says and may not be null; the two buffers must not
 * overlap.
 *
 * Sheet, result, list and record are laid out as docs/RULES.md says: every field unsigned, big-endian, no padding.
 * Consumers are counted from 0. Every entry takes sheets of versions 1, 2 and 3. Rows of version 1 cover the month,
 * those of versions 2 and 3 state their first and last day. A producer's powers stand hour by hour in versions 1 and 2,
 * in version 3 as three columns: working, possible and outside-use power. Results, lists and records are laid out alike
 * beside all of them.
 *
 * What a call needs of stack and processor, also under interrupts, is in docs/EMBEDDING.md.
 */
#ifndef CAPACITY_H
#define CAPACITY_H

#include <stddef.h>
#include <stdint.h>

#ifdef __cplusplus
extern "C" {
#endif

/*
 * The longest sheet, in bytes: version 2 or 3, 6 producers, 31 days, 32 rows, 32 consumers. In version 1, where a row
 * has two bytes less, it is 54,634.
 */
#define CAPACITY_LARGEST_SHEET 54698

/* The longest result, in bytes: 32 rows, 32 consumers. A buffer of this size is long enough for every sheet. */
#define CAPACITY_LARGEST_RESULT 1333

/* The longest result under the text of 2015, in bytes: 32 consumers. */
#define CAPACITY_LARGEST_RESULT_2015 548

/* A list of transfers, in bytes: its front (length and version), and each of its entries, however many there are. */
#define CAPACITY_LIST_FRONT 5
#define CAPACITY_LIST_ENTRY 7

/*
 * The record of an industrial complex, in bytes: its front (length, consumer and imported power), each of its hours, 24
 * for every day of the month (power drawn, power sent out), and the longest, of 31 days.
 */
#define CAPACITY_RECORD_FRONT 9
#define CAPACITY_RECORD_HOUR 8
#define CAPACITY_LARGEST_RECORD 5961

/*
 * The refusals: an answer of -CAPACITY_NO_HEADER and so on. docs/RULES.md has each cause. An entry tries its own in
 * this order, and answers with the first that applies:
 *
 * capacity_settle        1 to 12, then 18
 * capacity_transfer      1 to 6, 8 to 12, then 18 of the sheet, then 13 to 15 of the list
 * capacity_average       1 to 6, 8 to 12, then 18 of the sheet, then 16 and 17 of the record
 * capacity_settle_2015   1 to 12, then 18, where 7 is about the result of this entry
 */
enum capacity_refusal {
    CAPACITY_NO_HEADER = 1,       /* the sheet has fewer than 14 bytes */
    CAPACITY_WRONG_LENGTH = 2,    /* its length field is not the count of its bytes */
    CAPACITY_OTHER_VERSION = 3,   /* its version is not 1, 2 or 3 */
    CAPACITY_BAD_MONTH = 4,       /* days, weekday or holidays */
    CAPACITY_TOO_MANY = 5,        /* producers, rows or consumers */
    CAPACITY_LENGTH_OFF = 6,      /* its length does not go with version, month and counts */
    CAPACITY_SHORT_BUFFER = 7,    /* the result buffer is shorter than the result */
    CAPACITY_BAD_SHARE = 8,       /* a count of hours or a given coefficient */
    CAPACITY_HIGH_FIGURE = 9,     /* a capacity, power, volume or peak above 10,000.0 MW */
    CAPACITY_BAD_REFERENCE = 10,  /* a row's producer or consumer */
    CAPACITY_HIGH_PRICE = 11,     /* a price */
    CAPACITY_BAD_FACTOR = 12,     /* mining days or z */
    CAPACITY_BAD_LIST = 13,       /* the list's length, version, a day of no month, a giver or taker */
    CAPACITY_FILED_LATE = 14,     /* an entry filed after day 20 */
    CAPACITY_OVERDRAWN = 15,      /* at its turn, an entry asks more than the giver has or the taker may have */
    CAPACITY_BAD_RECORD = 16,     /* the record's length, for its bytes or for the month, or its consumer */
    CAPACITY_HIGH_POWER = 17,     /* a power in the record, imported power too, above 10,000.0 MW */
    CAPACITY_BAD_DAYS = 18        /* a row's first or last day */
};

/*
 * Settles one month's sheet.
 *
 * The answer, if it is above 0, is the count of bytes written to the front of the result buffer:
 * 21 + 16 for each row + 25 for each consumer. Bytes past the result keep what they had.
 *
 * If it is below 0, the sheet is turned down: the answer is minus the refusal's number (-CAPACITY_SHORT_BUFFER: the
 * result buffer is shorter than the result). Every byte of the result buffer keeps what it had.
 *
 * The answer is never 0. Any bytes may be handed over as a sheet.
 */
int64_t capacity_settle(const uint8_t *sheet, size_t sheet_length, uint8_t *result, size_t result_length);

/*
 * Applies a month's transfers to the contract volumes in its sheet, one after the other in the list's order.
 *
 * If the answer is 0, the whole list was applied: the contract volumes in the sheet are those after the list, their sum
 * is as before, and every other byte of the sheet keeps what it had. The sheet is then settled as any other.
 *
 * If it is below 0, sheet or list is turned down: the answer is minus the refusal's number. Every byte of the sheet
 * keeps what it had, even if only the last of the list's entries cannot be met.
 *
 * The answer is never above 0. Any bytes may be handed over as a sheet and as a list. A list that is handed over again
 * is applied again: the module does not know which lists a sheet has seen.
 */
int64_t capacity_transfer(uint8_t *sheet, size_t sheet_length, const uint8_t *list, size_t list_length);

/*
 * Takes the peak of one industrial complex by averaging, from its record of the month, and writes it into the sheet as
 * the peak of the consumer that the record names. A month with several complexes has a record and a call for each.
 *
 * If the answer is 0, the peak was written: the four bytes of that consumer's peak are the new one, and every other
 * byte of the sheet keeps what it had. The sheet is then settled as any other.
 *
 * If it is below 0, sheet or record is turned down: the answer is minus the refusal's number. Every byte of the sheet
 * keeps what it had. The peak that is to be written over is tried too, as a part of the sheet: let it be 0 where there
 * is none yet.
 *
 * The answer is never above 0. Any bytes may be handed over as a sheet and as a record. A record that is handed over
 * again writes the same peak again.
 */
int64_t capacity_average(uint8_t *sheet, size_t sheet_length, const uint8_t *record, size_t record_length);

/*
 * Settles the consumers of one month's sheet under the text of 2015: an old act is opened again with it. The sheet is
 * the same, and the whole of it is tried; the text reads contract volumes, peaks and prices, and knows no rows, no
 * credit, no mining days and no z.
 *
 * The answer, if it is above 0, is the count of bytes written to the front of the result buffer: 4 + 17 for each
 * consumer. Bytes past the result keep what they had.
 *
 * If it is below 0, the sheet is turned down: the answer is minus the refusal's number (-CAPACITY_SHORT_BUFFER: the
 * result buffer is shorter than this result). Every byte of the result buffer keeps what it had.
 *
 * The answer is never 0. Any bytes may be handed over as a sheet.
 */
int64_t capacity_settle_2015(const uint8_t *sheet, size_t sheet_length, uint8_t *result, size_t result_length);

/*
 * Reading a result. The counts of rows and consumers are the sheet's, at places 12 and 13 of its header; what is read
 * is to lie below them in a result that capacity_settle wrote, and for capacity_read_2015 in one that
 * capacity_settle_2015 wrote. Volumes are in tenths of a megawatt, money is in tiyn.
 */
struct capacity_row {
    uint32_t after_cut; /* volume after the cut */
    uint32_t actual;    /* actual volume, for the days that the row covers */
    uint64_t payment;
};

struct capacity_consumer_line {
    uint32_t credit;
    uint32_t percent; /* p, in thousandths */
    uint8_t band;     /* n, in tenths */
    uint64_t volume;  /* actual volume */
    uint64_t charge;
};

/* A consumer's line under the text of 2015. */
struct capacity_line_2015 {
    uint8_t factor; /* in tenths */
    uint64_t volume;
    uint64_t charge;
};

struct capacity_totals {
    uint64_t paid;
    uint64_t charged;
};

static inline size_t capacity_rows(const uint8_t *sheet)
{
    return sheet[12];
}

static inline size_t capacity_consumers(const uint8_t *sheet)
{
    return sheet[13];
}

/* The number in so many bytes, the highest first. */
static inline uint64_t capacity_number(const uint8_t *at, size_t bytes)
{
    uint64_t number = 0;
    for (size_t i = 0; i < bytes; i++)
        number = number << 8 | at[i];
    return number;
}

static inline struct capacity_row capacity_read_row(const uint8_t *result, size_t row)
{
    const uint8_t *at = result + 5 + 16 * row;
    struct capacity_row read;
    read.after_cut = (uint32_t)capacity_number(at, 4);
    read.actual = (uint32_t)capacity_number(at + 4, 4);
    read.payment = capacity_number(at + 8, 8);
    return read;
}

static inline struct capacity_consumer_line capacity_read_consumer(const uint8_t *result, size_t rows, size_t consumer)
{
    const uint8_t *at = result + 5 + 16 * rows + 25 * consumer;
    struct capacity_consumer_line read;
    read.credit = (uint32_t)capacity_number(at, 4);
    read.percent = (uint32_t)capacity_number(at + 4, 4);
    read.band = at[8];
    read.volume = capacity_number(at + 9, 8);
    read.charge = capacity_number(at + 17, 8);
    return read;
}

static inline struct capacity_totals capacity_read_totals(const uint8_t *result, size_t rows, size_t consumers)
{
    const uint8_t *at = result + 5 + 16 * rows + 25 * consumers;
    struct capacity_totals read;
    read.paid = capacity_number(at, 8);
    read.charged = capacity_number(at + 8, 8);
    return read;
}

/* Of a result that capacity_settle_2015 wrote. */
static inline struct capacity_line_2015 capacity_read_2015(const uint8_t *result, size_t consumer)
{
    const uint8_t *at = result + 4 + 17 * consumer;
    struct capacity_line_2015 read;
    read.factor = at[0];
    read.volume = capacity_number(at + 1, 8);
    read.charge = capacity_number(at + 9, 8);
    return read;
}

#ifdef __cplusplus
}
#endif

#endif
