/*
 * Request 3 of document 02 by hand, for speed: gcc -O3 for the processor that bench/run names, no intrinsics.
 *
 * Nothing is allocated and no state is kept. The sheet's numbers come first. Every power of the record is looked at
 * once, for number 17; those of the control hours are read a second time.
 */
#include "average.h"
#include "numbers.h"

enum { FRONT = 9, HOUR_OF_RECORD = 8, DAY_OF_RECORD = 24 * HOUR_OF_RECORD, FIRST_CONTROL_HOUR = 17, CONTROL_HOURS = 6 };

/* Number 16. */
static inline bool bad_record(const struct header *h, const uint8_t *record, size_t length)
{
    return length < FRONT || load4(record) != length || length != FRONT + (size_t)DAY_OF_RECORD * h->days ||
           record[4] >= h->consumers;
}

/* Net power in the control hours of a day, added up. */
static inline uint32_t net_of_day(const uint8_t *at)
{
    uint32_t net = 0;
    at += FIRST_CONTROL_HOUR * HOUR_OF_RECORD;
    for (int hour = 0; hour < CONTROL_HOURS; hour++, at += HOUR_OF_RECORD)
        net += less(load4(at), load4(at + 4));
    return net;
}

/* The average of net power over the control hours, rounded to a tenth. */
static inline uint32_t average_net(const struct header *h, const uint8_t *hours)
{
    uint32_t net = 0, count = 0;
    for (uint32_t days = h->control_days; days != 0; days &= days - 1, count += CONTROL_HOURS)
        net += net_of_day(hours + (size_t)DAY_OF_RECORD * (uint32_t)__builtin_ctz(days));
    return count == 0 ? 0 : nearest4(net, count);
}

int64_t c_average(uint8_t *sheet, size_t sheet_length, const uint8_t *record, size_t record_length)
{
    struct header h;
    int refusal = sheet_refusal(&h, sheet, sheet_length);
    if (refusal != 0)
        return -refusal;
    if (bad_record(&h, record, record_length))
        return -16;
    uint32_t imported = load4(record + 5);
    if (imported > TOP_CAPACITY || high_powers(record + FRONT, h.days, DAY_OF_RECORD))
        return -17;
    uint8_t *consumer = sheet + (h.consumer - sheet) + (size_t)CONSUMER * record[4];
    store4(consumer + 4, less(average_net(&h, record + FRONT), imported));
    return 0;
}
