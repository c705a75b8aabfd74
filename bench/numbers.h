/* What transfer.c, average.c and settle_2015.c share: the numbers of a sheet whose powers are only tried. */
#ifndef BENCH_NUMBERS_H
#define BENCH_NUMBERS_H

#include "sheet.h"

/* ---------------------------------------------------------------- the sheet */

/* Number 9 of a producer. */
static inline bool high_producer(const uint8_t *at, uint32_t days)
{
    return (load4(at) > TOP_CAPACITY) | (load4(at + 4) > TOP_CAPACITY) | (load4(at + 8) > TOP_CAPACITY) ||
           high_powers(at + PRODUCER, days, DAY);
}

/* Numbers 9 to 11 of the rows. */
static inline void read_rows(const struct header *h, struct faults *f)
{
    const uint8_t *at = h->row;
    for (uint32_t j = 0; j < h->rows; j++, at += h->row_width) {
        uint32_t p = at[0], c = at[1];
        f->high |= load4(at + 2) > TOP_CAPACITY;
        f->reference |= (p >= h->producers) | ((c != SINGLE_BUYER) & (c >= h->consumers));
        f->dear |= load4(at + 6) > TOP_PRICE;
    }
}

/* Numbers 8 to 12 and 18; 0 where none applies. */
static inline int figure_refusal(const struct header *h)
{
    if (bad_share(h))
        return 8;
    struct faults f = {false, false, false, false};
    read_rows(h, &f);
    read_consumers(h, &f);
    for (uint32_t p = 0; p < h->producers && !f.high; p++)
        f.high = high_producer(h->producer + p * h->producer_width, h->days);
    return f.high ? 9 : later_refusal(h, &f);
}

/* All numbers of a sheet that is to be changed, save 7; 0 where none applies, and then the header is filled. */
static inline int sheet_refusal(struct header *h, const uint8_t *sheet, size_t length)
{
    int refusal = read_header(h, sheet, length);
    return refusal != 0 ? refusal : figure_refusal(h);
}

#endif
