/* The averaging of request 3 of document 02 written by hand in C: what the proved module's speed is held against. */
#ifndef BENCH_AVERAGE_H
#define BENCH_AVERAGE_H

#include <stddef.h>
#include <stdint.h>

/* The same call as capacity_average of include/capacity.h: 0, or minus a refusal's number. */
int64_t c_average(uint8_t *sheet, size_t sheet_length, const uint8_t *record, size_t record_length);

#endif
