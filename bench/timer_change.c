/*
 * Applies one list of transfers, or one complex's record, to one sheet again and again, and prints the nanoseconds of a
 * call and the answer.
 *
 *   timer_change transfer|average module|c|none CALLS CASE [quiet]
 *
 * CASE holds sheet length (4 bytes, highest first), length of list or record (4), the sheet, the list or record, which
 * is to leave the sheet as it was. module: the proved archive. c: bench/transfer.c or bench/average.c. none: the loop
 * with the call left out. quiet: nothing is printed, so that instructions can be counted.
 */
#include "clock.h"

#include <stdint.h>
#include <stdio.h>
#include <stdlib.h>
#include <string.h>

#include "average.h"
#include "capacity.h"
#include "transfer.h"

typedef int64_t change(uint8_t *, size_t, const uint8_t *, size_t);

static const struct {
    const char *entry, *name;
    change *call;
} programs[] = {
    {"transfer", "module", capacity_transfer}, {"transfer", "c", c_transfer}, {"transfer", "none", NULL},
    {"average", "module", capacity_average},   {"average", "c", c_average},   {"average", "none", NULL},
};

static uint8_t sheet[1 << 20], before[1 << 20], given[1 << 20];

/* The nanoseconds of a call. The program is known only when this one runs, so no call is left out or moved. */
static double timed(change *volatile program, unsigned long calls, const size_t lengths[2], int64_t *answer)
{
    double start = now();
    for (unsigned long i = 0; i < calls; i++) {
        change *it = program;
        if (it != NULL)
            *answer = it(sheet, lengths[0], given, lengths[1]);
    }
    return (now() - start) / (double)calls;
}

static int read_bytes(FILE *in, uint8_t *bytes, size_t length)
{
    return length <= sizeof sheet && fread(bytes, 1, length, in) == length;
}

/* Which of the programs is named; their count if none is. */
static size_t named(const char *entry, const char *name)
{
    size_t i = 0;
    while (i < sizeof programs / sizeof programs[0] &&
           (strcmp(programs[i].entry, entry) != 0 || strcmp(programs[i].name, name) != 0))
        i++;
    return i;
}

/* Reads a file's case and gives its two lengths; 0 if it is not whole, or too long. */
static int read_case(FILE *in, size_t lengths[2])
{
    uint8_t front[8];
    if (!read_bytes(in, front, sizeof front))
        return 0;
    lengths[0] = capacity_number(front, 4);
    lengths[1] = capacity_number(front + 4, 4);
    return read_bytes(in, sheet, lengths[0]) && read_bytes(in, given, lengths[1]);
}

static int complain(int status, const char *what)
{
    fprintf(stderr, "timer_change: %s\n", what);
    return status;
}

int main(int count, char **words)
{
    size_t program = count == 5 || count == 6 ? named(words[1], words[2]) : sizeof programs / sizeof programs[0];
    if (program == sizeof programs / sizeof programs[0])
        return complain(2, "usage: timer_change transfer|average module|c|none CALLS CASE [quiet]");
    unsigned long calls = strtoul(words[3], NULL, 10);
    FILE *in = fopen(words[4], "rb");
    if (in == NULL || calls == 0)
        return complain(2, "no such case, or no calls");
    size_t lengths[2];
    int whole = read_case(in, lengths);
    fclose(in);
    if (!whole)
        return complain(2, "the case is not whole, or too long");
    memcpy(before, sheet, lengths[0]);

    int64_t answer = 0;
    timed(programs[program].call, calls / 8 + 1, lengths, &answer);
    double taken = timed(programs[program].call, calls, lengths, &answer);
    if (count == 6)
        return 0;
    if (answer != 0 || memcmp(before, sheet, lengths[0]) != 0)
        return complain(1, "the sheet is refused, or not as it was");
    printf("%.3f %lld\n", taken, (long long)answer);
    return 0;
}
