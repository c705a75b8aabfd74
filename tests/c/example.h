/*
 * Document 01's example sheet, its result, and its result under the text of 2015; two consumers, a transfer between
 * them, what comes of it; a complex.
 */
#ifndef EXAMPLE_H
#define EXAMPLE_H

#include <stdint.h>

#include "capacity.h"

/* One consumer: contract volume 100.0, peak 126.0, no mining days, z 1.0, price 100,000 tiyn; 30 days. */
static const uint8_t sheet[29] = {
    0, 0, 0, 29, 1, 30, 1, 0, 0, 0, 0, 0, 0, 1,
    0, 0, 3, 232, 0, 0, 4, 236, 0, 0, 10, 0, 1, 134, 160,
};

static const uint8_t expected[46] = {
    0, 0, 0, 46, 1,              /* length, version */
    0, 0, 0, 0,                  /* credit */
    0, 0, 0, 210,                /* p */
    15,                          /* n */
    0, 0, 0, 0, 0, 0, 4, 216,    /* actual volume 124.0 */
    0, 0, 0, 0, 0, 189, 53, 128, /* charge 12,400,000 tiyn */
    0, 0, 0, 0, 0, 0, 0, 0,      /* total paid */
    0, 0, 0, 0, 0, 189, 53, 128, /* total charged */
};

/* Under the text of 2015: the peak is 26.00 percent above the contract volume. */
static const uint8_t expected_2015[21] = {
    0, 0, 0, 21,                  /* length */
    15,                           /* factor 1.5 */
    0, 0, 0, 0, 0, 0, 5, 220,     /* volume 150.0 */
    0, 0, 0, 0, 0, 228, 225, 192, /* charge 15,000,000 tiyn */
};

/* Two consumers with contract volumes of 150.0 and 50.0 and peaks of 126.0 and 105.0, all else as above. */
static const uint8_t members[44] = {
    0, 0, 0, 44, 1, 30, 1, 0, 0, 0, 0, 0, 0, 2,
    0, 0, 5, 220, 0, 0, 4, 236, 0, 0, 10, 0, 1, 134, 160,
    0, 0, 1, 244, 0, 0, 4, 26, 0, 0, 10, 0, 1, 134, 160,
};

/* Filed on day 20: consumer 0 gives consumer 1 50.0. */
static const uint8_t list[12] = {
    0, 0, 0, 12, 1,
    20, 0, 1, 0, 0, 1, 244,
};

/* The sheet afterwards: both have 100.0. Document 01 has the volumes that are settled then, 124.0 and 100.0. */
static const uint8_t members_after[44] = {
    0, 0, 0, 44, 1, 30, 1, 0, 0, 0, 0, 0, 0, 2,
    0, 0, 3, 232, 0, 0, 4, 236, 0, 0, 10, 0, 1, 134, 160,
    0, 0, 3, 232, 0, 0, 4, 26, 0, 0, 10, 0, 1, 134, 160,
};

/* That sheet before the peak of consumer 0 was taken: 10,000.0 stands there. */
static const uint8_t members_unmeasured[44] = {
    0, 0, 0, 44, 1, 30, 1, 0, 0, 0, 0, 0, 0, 2,
    0, 0, 3, 232, 0, 1, 134, 160, 0, 0, 10, 0, 1, 134, 160,
    0, 0, 3, 232, 0, 0, 4, 26, 0, 0, 10, 0, 1, 134, 160,
};

/* Consumer 0 as an industrial complex: 176.0 drawn and 30.0 sent out in every hour, 20.0 imported. Its peak: 126.0. */
enum { RECORD = CAPACITY_RECORD_FRONT + 24 * 30 * CAPACITY_RECORD_HOUR };

static inline void fill_record(uint8_t record[RECORD])
{
    static const uint8_t front[CAPACITY_RECORD_FRONT] = {0, 0, RECORD / 256, RECORD % 256, 0, 0, 0, 0, 200};
    static const uint8_t hour[CAPACITY_RECORD_HOUR] = {0, 0, 6, 224, 0, 0, 1, 44};
    for (int i = 0; i < RECORD; i++)
        record[i] = i < CAPACITY_RECORD_FRONT ? front[i] : hour[(i - CAPACITY_RECORD_FRONT) % CAPACITY_RECORD_HOUR];
}

#endif
