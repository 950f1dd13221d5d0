#define _POSIX_C_SOURCE 200809L
#include "bench_clock.h"

#include <time.h>

double now(void)
{
    struct timespec t;
    clock_gettime(CLOCK_MONOTONIC, &t);
    return (double)t.tv_sec + (double)t.tv_nsec * 1e-9;
}

void keep_best(double *best, double seconds)
{
    if (seconds < *best)
        *best = seconds;
}

unsigned rounds_of_sweep(unsigned rounds, unsigned sweep)
{
    return (rounds + SWEEPS - 1 - sweep) / SWEEPS;
}
