/* The clock of the timers in C. It is to be included before any other file. */
#ifndef BENCH_CLOCK_H
#define BENCH_CLOCK_H

#define _POSIX_C_SOURCE 200809L
#include <time.h>

/* The processor's time, in nanoseconds: what other programs take in between is left out. */
static double now(void)
{
    struct timespec t;
    clock_gettime(CLOCK_PROCESS_CPUTIME_ID, &t);
    return 1e9 * (double)t.tv_sec + (double)t.tv_nsec;
}

#endif
