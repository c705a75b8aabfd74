/*
 * Settles the example sheet, also under the text of 2015, applies the example list, and takes the example complex's
 * peak, in a program that has no C library. The archive needs memcpy and memset, which stand here. The status is 0 if
 * answers, results and sheets are right. Linux on x86-64.
 */
#include "capacity.h"
#include "example.h"

enum { EXIT_CALL = 60 };

void *memset(void *to, int byte, size_t count);

void *memset(void *to, int byte, size_t count)
{
    volatile uint8_t *at = to;
    while (count-- > 0)
        *at++ = (uint8_t)byte;
    return to;
}

void *memcpy(void *to, const void *from, size_t count);

void *memcpy(void *to, const void *from, size_t count)
{
    volatile uint8_t *at = to;
    const uint8_t *next = from;
    while (count-- > 0)
        *at++ = *next++;
    return to;
}

static int same(const uint8_t *one, const uint8_t *other, size_t count)
{
    while (count-- > 0)
        if (*one++ != *other++)
            return 0;
    return 1;
}

static int settles_example(void)
{
    uint8_t result[sizeof expected];
    return capacity_settle(sheet, sizeof sheet, result, sizeof result) == (int64_t)sizeof expected &&
           same(result, expected, sizeof expected);
}

static int settles_under_2015(void)
{
    uint8_t result[sizeof expected_2015];
    return capacity_settle_2015(sheet, sizeof sheet, result, sizeof result) == (int64_t)sizeof expected_2015 &&
           same(result, expected_2015, sizeof expected_2015);
}

static int applies_list(void)
{
    uint8_t lent[sizeof members];
    memcpy(lent, members, sizeof members);
    return capacity_transfer(lent, sizeof lent, list, sizeof list) == 0 && same(lent, members_after, sizeof lent);
}

static int takes_peak(void)
{
    uint8_t lent[sizeof members], record[RECORD];
    memcpy(lent, members_unmeasured, sizeof lent);
    fill_record(record);
    return capacity_average(lent, sizeof lent, record, sizeof record) == 0 && same(lent, members_after, sizeof lent);
}

static void leave(long status)
{
    __asm__ volatile("syscall" : : "a"((long)EXIT_CALL), "D"(status) : "rcx", "r11", "memory");
}

/* Nobody called this, so the stack may not stand as a call leaves it. */
__attribute__((force_align_arg_pointer)) void _start(void);

void _start(void)
{
    leave(settles_example() && settles_under_2015() && applies_list() && takes_peak() ? 0 : 1);
}
