/* Request 4 of document 02 written by hand in C: what the proved module's speed is held against. */
#ifndef BENCH_SETTLE_2015_H
#define BENCH_SETTLE_2015_H

#include <stddef.h>
#include <stdint.h>

/* The same call as capacity_settle_2015 of include/capacity.h: the bytes written, or minus a refusal's number. */
int64_t c_settle_2015(const uint8_t *sheet, size_t sheet_length, uint8_t *result, size_t result_length);

#endif
