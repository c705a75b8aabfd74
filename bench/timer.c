/*
 * Settles one sheet again and again, and prints the nanoseconds of a call, the answer, and a sum over the result.
 *
 *   timer module|c|c_tuned|module_2015|c_2015|sum|none CALLS SHEET [quiet]
 *
 * module: the proved archive. c: bench/settle.c; c_tuned: the same with TUNED. module_2015, c_2015: the same
 * under the text of 2015. sum: no settlement; the sheet's bytes are added up, eight at a time. none: the loop
 * with the call left out. quiet: nothing is printed, so that instructions can be counted.
 */
#include "clock.h"

#include <stdint.h>
#include <stdio.h>
#include <stdlib.h>
#include <string.h>

#include "capacity.h"
#include "settle.h"
#include "settle_2015.h"

typedef int64_t settlement(const uint8_t *, size_t, uint8_t *, size_t);

static uint8_t sheet[1 << 20], result[2000];

static int64_t sum_of(const uint8_t *bytes, size_t length, uint8_t *out, size_t room)
{
    uint64_t sum = 0;
    size_t at = 0;
    (void)out, (void)room;
    for (; at + 8 <= length; at += 8) {
        uint64_t x;
        memcpy(&x, bytes + at, sizeof x);
        sum += x;
    }
    for (; at < length; at++)
        sum += bytes[at];
    return (int64_t)sum;
}

static const struct {
    const char *name;
    settlement *call;
} programs[] = {
    {"module", capacity_settle},           {"c", c_settle},
    {"module_2015", capacity_settle_2015}, {"c_2015", c_settle_2015},
    {"c_tuned", c_settle_tuned},           {"sum", sum_of},
};

/* The nanoseconds of a call. The settlement is known only when the program runs, so no call is left out or moved. */
static double timed(settlement *volatile settle, unsigned long calls, size_t length, int64_t *answer)
{
    double start = now();
    for (unsigned long i = 0; i < calls; i++) {
        settlement *it = settle;
        if (it != NULL)
            *answer = it(sheet, length, result, sizeof result);
    }
    return (now() - start) / (double)calls;
}

int main(int count, char **words)
{
    if (count != 4 && count != 5) {
        fputs("usage: timer module|c|c_tuned|module_2015|c_2015|sum|none CALLS SHEET [quiet]\n", stderr);
        return 2;
    }
    settlement *settle = NULL;
    for (size_t i = 0; i < sizeof programs / sizeof programs[0]; i++)
        if (strcmp(words[1], programs[i].name) == 0)
            settle = programs[i].call;
    unsigned long calls = strtoul(words[2], NULL, 10);
    FILE *in = fopen(words[3], "rb");
    if (in == NULL || calls == 0) {
        fputs("timer: no such sheet, or no calls\n", stderr);
        return 2;
    }
    size_t length = fread(sheet, 1, sizeof sheet, in);
    fclose(in);

    int64_t answer = 0;
    timed(settle, calls / 8 + 1, length, &answer);
    double taken = timed(settle, calls, length, &answer);
    if (count == 5)
        return 0;
    uint32_t over = 0;
    for (int64_t i = 0; i < answer && settle != sum_of; i++)
        over = over * 31 + result[i];
    printf("%.3f %lld %lu\n", taken, (long long)answer, (unsigned long)over);
    return 0;
}
