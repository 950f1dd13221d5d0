#include "bench_reading.h"

#include <stdio.h>
#include <stdlib.h>

#include "bench_clock.h"
#include "bench_jobs.h"
#include "checker.h"
#include "plain_reader.h"

/* ---- the three readers ---- */

/*
 * The write call looks at the room only after it has read the whole job, so with no
 * room at all a sound job costs its reading and no writing.  Any other outcome would
 * be the time of something else.
 */
static double time_library(const struct draft_job *draft)
{
    double begin = now();
    uint64_t result = mvz_write(draft->bytes, draft->length, NULL, 0);
    double seconds = now() - begin;
    if (result != (uint64_t)MVZ_NO_ROOM << 32) {
        fprintf(stderr,
                "bench: the write call with no room gives refusal %u, place %u; "
                "it must be 14, place 0\n",
                (unsigned)mvz_refusal(result), (unsigned)mvz_place(result));
        exit(1);
    }
    return seconds;
}

static double time_checker(const struct draft_job *draft, struct job *job, struct verdict *verdict)
{
    double begin = now();
    *verdict = checker_read(draft->bytes, draft->length, job);
    return now() - begin;
}

static double time_plain(const struct draft_job *draft, struct plain_job *job,
                         struct verdict *verdict)
{
    double begin = now();
    *verdict = plain_read(draft->bytes, draft->length, job);
    return now() - begin;
}

/*
 * ---- both plain readers read the same ----
 *
 * The jobs in the table are sound, and a reader that leaves checks out would read them
 * faster.  So the fast reader must first refuse as the checker does, by every number.
 */

static bool lists_agree(const struct list *a, const struct plain_list *b)
{
    if (a->count != b->count)
        return false;
    for (unsigned rank = 0; rank < a->count; rank++)
        if (a->key[a->name_at[rank]] != b->key[b->at_rank[rank]])
            return false;
    return true;
}

static bool jobs_agree(const struct job *a, const struct plain_job *b)
{
    bool alike = a->question == b->question && a->d == b->d && a->v == b->v;
    for (unsigned dimension = 1; dimension <= 3; dimension++)
        alike = alike && lists_agree(&a->list[dimension], &b->list[dimension - 1]);
    for (unsigned i = 0; i < LIST_MOST; i++)
        alike = alike && a->in_chain[i] == b->in_chain[i];
    return alike;
}

static void insist_on_one_reading(const struct job *a, struct verdict by_checker,
                                  const struct plain_job *b, struct verdict by_plain)
{
    bool alike = by_checker.refusal == by_plain.refusal && by_checker.place == by_plain.place
              && (by_checker.refusal != 0 || jobs_agree(a, b));
    if (!alike) {
        fprintf(stderr,
                "bench: the plain readers do not agree: the checker gives refusal %u, place %u; "
                "the fast one %u, place %u\n",
                by_checker.refusal, (unsigned)by_checker.place, by_plain.refusal,
                (unsigned)by_plain.place);
        exit(1);
    }
}

/* The outcome: the refusal's number, or 0. */
static unsigned hold_plain_reader_to_checker(const uint8_t *bytes, size_t length)
{
    static struct job job;
    static struct plain_job plain_job;
    struct verdict by_checker = checker_read(bytes, length, &job);
    struct verdict by_plain = plain_read(bytes, length, &plain_job);
    insist_on_one_reading(&job, by_checker, &plain_job, by_plain);
    return by_checker.refusal;
}

enum { RANDOM_JOBS = 20000 };

static size_t draw_job(unsigned long seed, uint8_t *job)
{
    enum job_size size = seed % 500 == 499 ? LARGE : seed % 50 == 49 ? MIDDLE : SMALL;
    struct dice dice;
    dice_seed(&dice, seed);
    size_t length = random_whole_job(&dice, size, job);
    return dice_chance(&dice, 50) ? random_damage(&dice, job, length) : length;
}

static void compare_on_random_jobs(void)
{
    static uint8_t job[RANDOM_JOB_MOST];
    unsigned long seen[MVZ_NO_ROOM] = {0};
    for (unsigned long seed = 0; seed < RANDOM_JOBS; seed++) {
        size_t length = draw_job(seed, job);
        seen[hold_plain_reader_to_checker(job, length)]++;
    }
    for (unsigned number = MVZ_NOT_REFUSED; number <= MVZ_BAD_TARGET; number++)
        if (seen[number] == 0) {
            fprintf(stderr, "bench: no random job has the outcome %u\n", number);
            exit(1);
        }
}

/* Random jobs stay below the limits.  One item too many, and its record is refused. */
static void compare_above_limits(void)
{
    static const struct { unsigned kind; size_t length; } above[] = {
        {MVZ_KIND_EDGES, 2 * 513}, {MVZ_KIND_TRIANGLES, 3 * 513}, {MVZ_KIND_TETRAHEDRA, 4 * 513},
        {MVZ_KIND_CHAIN, 2 * 513}, {MVZ_KIND_WALK, 1025}};
    static const uint8_t zeros[4 * 513];
    static struct draft_job draft;
    for (unsigned i = 0; i < sizeof above / sizeof above[0]; i++) {
        draft_start(&draft);
        draft_head(&draft, MVZ_FILL, 2, 0);
        for (unsigned kind = MVZ_KIND_EDGES; kind < above[i].kind && kind < MVZ_KIND_CHAIN; kind++)
            draft_record(&draft, kind, NULL, 0);
        draft_record(&draft, above[i].kind, zeros, above[i].length);
        if (hold_plain_reader_to_checker(draft.bytes, draft.length) != MVZ_BAD_SHAPE) {
            fprintf(stderr, "bench: a record of kind %u above its limit is read\n", above[i].kind);
            exit(1);
        }
    }
}

/* ---- one row ---- */

static const struct {
    const char *name;
    unsigned size;
} rows[] = {
    {"random", 0},
    {"random", 1},
    {"random", 2},
    {"random", 3},
    {"disc, row by row", SIZES - 1},
    {"sphere, shuffled", SIZES - 1},
    {"full", 0},
    {"full, facets last", 0},
    {"full, walk, edits", 0},
};

enum { ROWS = sizeof rows / sizeof rows[0] };

struct times {
    double library, checker, plain;
};

static void measure(const struct draft_job *draft, unsigned rounds, struct job *job,
                    struct times *best)
{
    static struct plain_job plain_job;
    for (unsigned i = 0; i < rounds; i++) {
        struct verdict by_checker, by_plain;
        keep_best(&best->library, time_library(draft));
        keep_best(&best->checker, time_checker(draft, job, &by_checker));
        keep_best(&best->plain, time_plain(draft, &plain_job, &by_plain));
        insist_on_one_reading(job, by_checker, &plain_job, by_plain);
    }
}

/* ---- the table ---- */

static void print_heading(unsigned rounds)
{
    printf("Reading alone; times in microseconds, best of %u rounds.\n"
           "library  the write call with no room: it reads the whole job and refuses with 14\n"
           "checker  the checker's reader: plain C that goes through a list to find a simplex,\n"
           "         for doubles, facets and steps alike\n"
           "fast C   plain_reader.c: plain C that finds a simplex by hash; on %d random jobs,\n"
           "         damaged ones among them, it did as the checker's reader does\n\n",
           rounds, RANDOM_JOBS);
    printf("%-18s %5s %4s %5s %9s %9s %9s %8s %8s\n", "job", "edges", "tri", "tetra", "library",
           "checker", "fast C", "lib/chk", "lib/fast");
}

static void print_row(const char *name, const struct job *job, struct times t)
{
    printf("%-18s %5u %4u %5u %9.1f %9.1f %9.1f %8.2f %8.2f\n", name, job->list[1].count,
           job->list[2].count, job->list[3].count, t.library * 1e6, t.checker * 1e6,
           t.plain * 1e6, t.library / t.checker, t.library / t.plain);
}

void print_reading_table(unsigned rounds)
{
    static struct draft_job draft;
    static struct job job[ROWS];
    struct times best[ROWS];
    compare_on_random_jobs();
    compare_above_limits();
    print_heading(rounds);
    for (unsigned i = 0; i < ROWS; i++)
        best[i] = (struct times){1e9, 1e9, 1e9};
    for (unsigned sweep = 0; sweep < SWEEPS; sweep++)
        for (unsigned i = 0; i < ROWS; i++) {
            bench_job_draft(bench_job_named(rows[i].name), rows[i].size, &draft);
            measure(&draft, rounds_of_sweep(rounds, sweep), &job[i], &best[i]);
        }
    for (unsigned i = 0; i < ROWS; i++)
        print_row(rows[i].name, &job[i], best[i]);
}
