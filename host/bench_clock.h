/* The clock of the bench, and how its rounds are spread. */
#ifndef BENCH_CLOCK_H
#define BENCH_CLOCK_H

/* Seconds since some moment. */
double now(void);

/* Keeps the shorter of two times: what is longer was disturbed. */
void keep_best(double *best, double seconds);

/*
 * A table's rows are gone through in sweeps, each with its share of the rounds, so that
 * a machine that is slow for some seconds does not spoil a row.
 */
enum { SWEEPS = 10 };

unsigned rounds_of_sweep(unsigned rounds, unsigned sweep);

#endif
