/*
 * Writes one of the bench's jobs to a file, for the profile.
 *
 *   write_job NAME SIZE FILE
 *
 * NAME is a name in the bench's tables, SIZE counts its rows there from 0.
 */
#include <errno.h>
#include <stdio.h>
#include <string.h>

#include "bench_jobs.h"
#include "numbers.h"

static int complain_of_usage(void)
{
    fprintf(stderr, "usage: host/run-bench --write-job NAME SIZE FILE; names and sizes are:\n");
    for (unsigned i = 0; i < bench_job_count; i++) {
        unsigned last = bench_job_sizes(&bench_jobs[i]) - 1;
        fprintf(stderr, last > 0 ? "  '%s' 0 to %u\n" : "  '%s' %u\n", bench_jobs[i].name, last);
    }
    return 2;
}

static int complain_of_file(const char *path)
{
    fprintf(stderr, "write_job: cannot write %s: %s\n", path, strerror(errno));
    return 2;
}

static int write_file(const char *path, const struct draft_job *draft)
{
    FILE *file = fopen(path, "wb");
    if (file == NULL)
        return complain_of_file(path);
    bool whole = fwrite(draft->bytes, 1, draft->length, file) == draft->length;
    bool closed = fclose(file) == 0; /* what was held back may fail only now */
    return whole && closed ? 0 : complain_of_file(path);
}

int main(int argc, char **argv)
{
    static struct draft_job draft;
    unsigned size;
    const struct bench_job *job = argc == 4 ? bench_job_named(argv[1]) : NULL;
    if (job == NULL || !number_of(argv[2], 0, bench_job_sizes(job) - 1, &size))
        return complain_of_usage();
    bench_job_draft(job, size, &draft);
    return write_file(argv[3], &draft);
}
