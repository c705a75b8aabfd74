/* What the tests in C expect of answers and bytes. A test ends with status 1 where something was wrong. */
#ifndef EXPECT_H
#define EXPECT_H

#include <stdio.h>

#include "capacity.h"

/* What stands in a buffer before a call. */
#define UNTOUCHED 0xA5

static int wrong;

static inline void expect_answer(const char *what, int64_t answer, int64_t wanted)
{
    if (answer != wanted) {
        printf("%s: answer %lld, not %lld\n", what, (long long)answer, (long long)wanted);
        wrong = 1;
    }
}

static inline void expect_byte(const char *what, const uint8_t *buffer, size_t at, uint8_t wanted)
{
    if (buffer[at] != wanted) {
        printf("%s: byte %zu is %d, not %d\n", what, at, buffer[at], wanted);
        wrong = 1;
    }
}

static inline void expect_bytes(const char *what, const uint8_t *buffer, const uint8_t *wanted, size_t count)
{
    for (size_t i = 0; i < count; i++)
        expect_byte(what, buffer, i, wanted[i]);
}

/* From a place on, up to the end of a buffer of so many bytes. */
static inline void expect_untouched(const char *what, const uint8_t *buffer, size_t from, size_t count)
{
    for (size_t i = from; i < count; i++)
        expect_byte(what, buffer, i, UNTOUCHED);
}

#endif
