/* The settlement of document 01 written by hand in C: what the proved module's speed is held against. */
#ifndef BENCH_SETTLE_H
#define BENCH_SETTLE_H

#include <stddef.h>
#include <stdint.h>

/* The same call as capacity_settle of include/capacity.h: the count of bytes written, or minus a refusal's number. */
int64_t c_settle(const uint8_t *sheet, size_t sheet_length, uint8_t *result, size_t result_length);

/* The same, where hours as columns are first copied together: settle.c with TUNED. */
int64_t c_settle_tuned(const uint8_t *sheet, size_t sheet_length, uint8_t *result, size_t result_length);

#endif
