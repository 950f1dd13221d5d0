#include "bench_jobs.h"

#include <string.h>

#include "limit_jobs.h"
#include "mvozelanke.h"

/* ---- surfaces ---- */

static void make_random(struct shape *shape, unsigned size)
{
    static const unsigned triangles[SIZES] = {64, 128, 256, 512};
    struct dice dice;
    dice_seed(&dice, size);
    shape_random(shape, triangles[size], &dice);
}

/* More than 320 triangles of a disc, or 340 of a sphere, need more than 512 edges. */
static void make_disc(struct shape *shape, unsigned size)
{
    static const unsigned grid[SIZES][2] = {{8, 4}, {8, 8}, {16, 8}, {16, 10}};
    shape_disc(shape, grid[size][0], grid[size][1]);
}

static void make_shuffled_disc(struct shape *shape, unsigned size)
{
    struct dice dice;
    dice_seed(&dice, 10 + size);
    make_disc(shape, size);
    shape_shuffle(shape, &dice);
}

static void make_sphere(struct shape *shape, unsigned size)
{
    static const unsigned grid[SIZES][2] = {{8, 4}, {8, 8}, {16, 8}, {17, 10}};
    struct dice dice;
    dice_seed(&dice, 20 + size);
    shape_sphere(shape, grid[size][0], grid[size][1]);
    shape_shuffle(shape, &dice);
}

static void make_hostile(struct shape *shape, unsigned size)
{
    shape_hostile(shape, 64u << size, false);
}

static void make_hostile_falling(struct shape *shape, unsigned size)
{
    shape_hostile(shape, 64u << size, true);
}

static void make_colliding(struct shape *shape, unsigned size)
{
    static const unsigned vertices[SIZES] = {12, 16, 23, 32};
    shape_colliding(shape, vertices[size], 64u << size);
}

/* ---- jobs at the limits ---- */

static void make_full(struct draft_job *draft)
{
    draft_full(draft, MVZ_FILL, 2);
}

static void make_full_turned_round(struct draft_job *draft)
{
    draft_full_turned_round(draft, MVZ_FILL, 2);
}

/* ---- by name ---- */

const struct bench_job bench_jobs[] = {
    {"random", make_random, NULL},
    {"disc, row by row", make_disc, NULL},
    {"disc, shuffled", make_shuffled_disc, NULL},
    {"sphere, shuffled", make_sphere, NULL},
    {"hostile", make_hostile, NULL},
    {"hostile, falling", make_hostile_falling, NULL},
    {"colliding", make_colliding, NULL},
    {"full", NULL, make_full},
    {"full, facets last", NULL, make_full_turned_round},
    {"full, walk, edits", NULL, draft_longest_with_walk},
};

const unsigned bench_job_count = sizeof bench_jobs / sizeof bench_jobs[0];

const struct bench_job *bench_job_named(const char *name)
{
    for (unsigned i = 0; i < bench_job_count; i++)
        if (strcmp(bench_jobs[i].name, name) == 0)
            return &bench_jobs[i];
    return NULL;
}

unsigned bench_job_sizes(const struct bench_job *job)
{
    return job->make_shape != NULL ? SIZES : 1;
}

void bench_job_draft(const struct bench_job *job, unsigned size, struct draft_job *draft)
{
    static struct shape shape;
    if (job->make_shape == NULL) {
        job->make_full(draft);
        return;
    }
    job->make_shape(&shape, size);
    shape_job(&shape, draft);
}
