/*
 * Random jobs, the same for the same seed: sound ones of many shapes, and ones
 * that are damaged in one place or in several.
 */
#ifndef RANDOM_JOBS_H
#define RANDOM_JOBS_H

#include <stdbool.h>
#include <stddef.h>
#include <stdint.h>

struct dice {
    uint64_t state;
};

void dice_seed(struct dice *dice, uint64_t seed);
unsigned dice_below(struct dice *dice, unsigned n); /* 0 to n-1; n is not 0 */
bool dice_chance(struct dice *dice, unsigned percent);

enum { RANDOM_JOB_MOST = 8000 };

enum job_size { SMALL, MIDDLE, LARGE };

/* Makes a job that no damage was done to.  Its edits and its walk may still be refused. */
size_t random_whole_job(struct dice *dice, enum job_size size, uint8_t *out);

/* Damages a job in place; its new length, at most RANDOM_JOB_MOST. */
size_t random_damage(struct dice *dice, uint8_t *job, size_t length);

#endif
