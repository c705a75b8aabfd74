/* The transfers of request 1 of document 02 written by hand in C: what the proved module's speed is held against. */
#ifndef BENCH_TRANSFER_H
#define BENCH_TRANSFER_H

#include <stddef.h>
#include <stdint.h>

/* The same call as capacity_transfer of include/capacity.h: 0, or minus a refusal's number. */
int64_t c_transfer(uint8_t *sheet, size_t sheet_length, const uint8_t *list, size_t list_length);

#endif
