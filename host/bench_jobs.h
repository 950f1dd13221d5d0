/* The jobs that are measured, each by its name in the tables and its size. */
#ifndef BENCH_JOBS_H
#define BENCH_JOBS_H

#include "bench_shapes.h"
#include "draft.h"

enum { SIZES = 4 };

/* A surface to fill, in SIZES sizes, or a job at the limits, in one. */
struct bench_job {
    const char *name;
    void (*make_shape)(struct shape *shape, unsigned size); /* NULL where it is no surface */
    void (*make_full)(struct draft_job *draft);             /* then this makes it */
};

extern const struct bench_job bench_jobs[];
extern const unsigned bench_job_count;

/* NULL where no job has this name. */
const struct bench_job *bench_job_named(const char *name);

/* How many sizes it comes in; they are counted from 0. */
unsigned bench_job_sizes(const struct bench_job *job);

void bench_job_draft(const struct bench_job *job, unsigned size, struct draft_job *draft);

#endif
