/*
 * How long an answer takes: the whole call, reading included, against the plain C of
 * the checker (reading included), against what one would use in the library's place
 * (plain C that reads the job by hash, then PHAT), and against PHAT's reduction alone
 * of the same matrix, or of the whole complex's (PHAT looks for no filling).
 * Then, in a second table, how long reading alone takes.
 *
 *   bench [ROUNDS]
 *
 * Each time is the best of ROUNDS rounds.  Library, plain C and PHAT must agree on
 * each job.
 */
#include <stdio.h>
#include <stdlib.h>
#include <string.h>

#include "bench_clock.h"
#include "bench_jobs.h"
#include "bench_phat.h"
#include "bench_reading.h"
#include "checker.h"
#include "numbers.h"
#include "plain_reader.h"

enum { ROUNDS = 60, ROUNDS_MOST = 1000000 };

/* ---- the ways to an answer ---- */

struct answer {
    uint8_t record[MVZ_OUT_ROOM];
    size_t length;
};

static double time_library(const struct draft_job *job, struct answer *answer)
{
    static uint8_t work[MVZ_WORK_ROOM];
    double begin = now();
    answer->length = mvz_answer(job->bytes, job->length, answer->record, sizeof answer->record,
                                work, sizeof work);
    return now() - begin;
}

/* Writing reads the whole job and solves nothing. */
static double time_writing(const struct draft_job *job)
{
    static uint8_t out[MVZ_NORMAL_MOST];
    double begin = now();
    uint64_t result = mvz_write(job->bytes, job->length, out, sizeof out);
    double seconds = now() - begin;
    if (mvz_refusal(result) != MVZ_NOT_REFUSED) {
        fprintf(stderr, "bench: a job is refused\n");
        exit(1);
    }
    return seconds;
}

static double time_plain(const struct draft_job *job, struct answer *answer)
{
    static struct job read;
    double begin = now();
    struct verdict verdict = checker_read(job->bytes, job->length, &read);
    answer->length = verdict.refusal != 0 ? checker_refusal_record(verdict, answer->record)
                                          : checker_solve(&read, ELIMINATE, answer->record);
    return now() - begin;
}

/*
 * What a call has to do whatever its search is like: read the job, here in plain C by
 * hash, and clear the work memory.  The pointer keeps the compiler from leaving out a
 * clearing that nobody looks at.
 */
static void do_least(const struct draft_job *job)
{
    static uint8_t work[MVZ_WORK_ROOM];
    static struct plain_job read;
    void *(*volatile clear)(void *, int, size_t) = memset;
    struct verdict verdict = plain_read(job->bytes, job->length, &read);
    clear(work, 0, sizeof work);
    if (verdict.refusal != 0) {
        fprintf(stderr, "bench: the fast C reader refuses a job\n");
        exit(1);
    }
}

static double time_least(const struct draft_job *job)
{
    double begin = now();
    do_least(job);
    return now() - begin;
}

/*
 * The better of PHAT's two reductions, of a matrix that is made before the clock
 * starts.  Where a job is given, `least` is done to it first, within the same time: the
 * two are timed in one go, and not added up from two best times, so that the reduction
 * finds the caches as the reader left them.
 */
static double time_phat(const struct shape *shape, enum phat_columns columns,
                        const struct draft_job *read_first, bool *bounds)
{
    static const enum phat_way ways[] = {PHAT_STANDARD, PHAT_TWIST};
    double best = 1e9;
    for (unsigned i = 0; i < sizeof ways / sizeof ways[0]; i++) {
        struct phat_matrix *matrix = phat_make(shape, columns);
        double begin = now();
        if (read_first != NULL)
            do_least(read_first);
        phat_reduce(matrix, ways[i]);
        keep_best(&best, now() - begin);
        *bounds = phat_bounds(matrix);
        phat_free(matrix);
    }
    return best;
}

/* ---- one row ---- */

struct times {
    double library, writing, plain, least, phat, instead, whole;
};

static void insist_on_one_answer(const struct answer *a, const struct answer *b, bool bounds)
{
    bool alike = a->length == b->length && memcmp(a->record, b->record, a->length) == 0
              && bounds == (a->record[4] == MVZ_KIND_ANSWER);
    if (!alike) {
        fprintf(stderr, "bench: library, plain C and PHAT do not agree\n");
        exit(1);
    }
}

static void measure(const struct shape *shape, unsigned rounds, struct times *best)
{
    static struct draft_job job;
    shape_job(shape, &job);
    for (unsigned i = 0; i < rounds; i++) {
        struct answer by_library, by_plain;
        bool bounds, bounds_instead, bounds_in_whole;
        keep_best(&best->library, time_library(&job, &by_library));
        keep_best(&best->writing, time_writing(&job));
        keep_best(&best->plain, time_plain(&job, &by_plain));
        keep_best(&best->least, time_least(&job));
        keep_best(&best->phat, time_phat(shape, PHAT_ASKED, NULL, &bounds));
        keep_best(&best->instead, time_phat(shape, PHAT_ASKED, &job, &bounds_instead));
        keep_best(&best->whole, time_phat(shape, PHAT_WHOLE, NULL, &bounds_in_whole));
        insist_on_one_answer(&by_library, &by_plain, bounds);
        insist_on_one_answer(&by_library, &by_plain, bounds_instead);
        insist_on_one_answer(&by_library, &by_plain, bounds_in_whole);
    }
}

/* ---- the table ---- */

static void print_row(const char *name, const struct shape *shape, struct times t,
                      const struct times *smaller)
{
    printf("%-16s %4u %5u %8.1f %6.1f %8.1f %6.1f %7.1f %10.1f %7.1f %16.2f %8.2f %9.2f %6.2f",
           name, shape->triangles, shape->edges, t.library * 1e6, t.writing * 1e6, t.plain * 1e6,
           t.least * 1e6, t.phat * 1e6, t.instead * 1e6, t.whole * 1e6, t.library / t.instead,
           t.library / t.phat, t.library / t.whole, t.library / t.plain);
    if (smaller != NULL)
        printf(" %7.2f", t.library / smaller->library);
    printf("\n");
}

static void print_heading(unsigned rounds)
{
    printf("Fill jobs, d 2; times in microseconds, best of %u rounds.\n"
           "library     the whole answer call, reading included\n"
           "write       the whole write call: reading, and no search\n"
           "plain C     the checker's reading and elimination\n"
           "least       plain C that reads the job by hash and clears the work memory, no search\n"
           "PHAT        its reduction alone, of the triangles' boundaries, as the library's;\n"
           "            the better of standard and twist\n"
           "least+PHAT  what one would use in the library's place: least and then PHAT,\n"
           "            timed in one go; PHAT's matrix is there before the clock starts\n"
           "whole       PHAT with all cells as columns, as its own boundary matrices have them\n"
           "growth      the library's time over its time one row up\n\n",
           rounds);
    printf("%-16s %4s %5s %8s %6s %8s %6s %7s %10s %7s %16s %8s %9s %6s %7s\n", "shape", "tri",
           "edges", "library", "write", "plain C", "least", "PHAT", "least+PHAT", "whole",
           "lib/(least+PHAT)", "lib/PHAT", "lib/whole", "lib/C", "growth");
}

enum { ROWS_MOST = 64 };

static struct times best_of_row[ROWS_MOST];

/* Goes through all rows: only surfaces have one, nothing else is anything to PHAT. */
static void each_row(void (*row)(unsigned number, const char *name, const struct shape *shape,
                                 unsigned size, unsigned rounds),
                     unsigned rounds)
{
    static struct shape shape;
    unsigned number = 0;
    for (unsigned i = 0; i < bench_job_count; i++)
        for (unsigned size = 0; size < SIZES && bench_jobs[i].make_shape != NULL; size++) {
            bench_jobs[i].make_shape(&shape, size);
            row(number++, bench_jobs[i].name, &shape, size, rounds);
        }
}

static void measure_row(unsigned number, const char *name, const struct shape *shape, unsigned size,
                        unsigned rounds)
{
    (void)name, (void)size;
    measure(shape, rounds, &best_of_row[number]);
}

static void print_best(unsigned number, const char *name, const struct shape *shape, unsigned size,
                       unsigned rounds)
{
    (void)rounds;
    print_row(name, shape, best_of_row[number], size > 0 ? &best_of_row[number - 1] : NULL);
}

static void print_answer_table(unsigned rounds)
{
    for (unsigned i = 0; i < ROWS_MOST; i++)
        best_of_row[i] = (struct times){1e9, 1e9, 1e9, 1e9, 1e9, 1e9, 1e9};
    print_heading(rounds);
    for (unsigned sweep = 0; sweep < SWEEPS; sweep++)
        each_row(measure_row, rounds_of_sweep(rounds, sweep));
    each_row(print_best, 0);
}

int main(int argc, char **argv)
{
    unsigned rounds = ROUNDS;
    if (argc > 2 || (argc == 2 && !number_of(argv[1], 1, ROUNDS_MOST, &rounds))) {
        fprintf(stderr, "usage: bench [ROUNDS], from 1 to %d\n", ROUNDS_MOST);
        return 2;
    }
    print_answer_table(rounds);
    printf("\n");
    print_reading_table(rounds);
    return 0;
}
