/*
 * Calls the library over and over on one job, so that a profiler has something to see.
 *
 *   profile CALL JOBFILE [TIMES]
 *
 * CALL is 'answer' or 'write'.  What the call gave is printed, since the profile of a
 * job that is refused early tells of little else than its head.
 */
#include <errno.h>
#include <stdio.h>
#include <stdlib.h>
#include <string.h>

#include "bench_clock.h"
#include "mvozelanke.h"
#include "numbers.h"

enum { TIMES = 2000, TIMES_MOST = 100000000 };

/* A longer job is refused by its length alone, so one byte more than the most will do. */
struct job_file {
    size_t length;
    uint8_t bytes[MVZ_JOB_MOST + 1];
};

static void read_job(const char *path, struct job_file *job)
{
    FILE *file = fopen(path, "rb");
    if (file != NULL)
        job->length = fread(job->bytes, 1, sizeof job->bytes, file);
    if (file == NULL || ferror(file)) {
        fprintf(stderr, "profile: cannot read %s: %s\n", path, strerror(errno));
        exit(2);
    }
    fclose(file);
}

/* ---- the calls ---- */

static void print_refusal(unsigned number, unsigned place)
{
    printf("refusal %u, place %u", number, place);
}

static void repeat_answer(const struct job_file *job, unsigned times)
{
    static uint8_t out[MVZ_OUT_ROOM], work[MVZ_WORK_ROOM];
    size_t length = 0;
    for (unsigned i = 0; i < times; i++)
        length = mvz_answer(job->bytes, job->length, out, sizeof out, work, sizeof work);
    if (out[4] == MVZ_KIND_REFUSAL)
        print_refusal(out[6], out[8] | (unsigned)out[9] << 8); /* no place needs more bytes */
    else
        printf("a chain, %zu bytes", length);
}

static void repeat_write(const struct job_file *job, unsigned times)
{
    static uint8_t out[MVZ_NORMAL_MOST];
    uint64_t result = 0;
    for (unsigned i = 0; i < times; i++)
        result = mvz_write(job->bytes, job->length, out, sizeof out);
    if (mvz_refusal(result) != MVZ_NOT_REFUSED)
        print_refusal((unsigned)mvz_refusal(result), (unsigned)mvz_place(result));
    else
        printf("a normal form, %u bytes", (unsigned)mvz_length(result));
}

static const struct {
    const char *name;
    void (*repeat)(const struct job_file *job, unsigned times);
} calls[] = {{"answer", repeat_answer}, {"write", repeat_write}};

int main(int argc, char **argv)
{
    static struct job_file job;
    unsigned times = TIMES, call = 0, count = sizeof calls / sizeof calls[0];
    while (argc > 1 && call < count && strcmp(argv[1], calls[call].name) != 0)
        call++;
    if (argc < 3 || argc > 4 || call == count
        || (argc == 4 && !number_of(argv[3], 1, TIMES_MOST, &times))) {
        fprintf(stderr, "usage: profile answer|write JOBFILE [TIMES], TIMES from 1 to %d\n",
                TIMES_MOST);
        return 2;
    }
    read_job(argv[2], &job);
    printf("%s, job of %zu bytes, %u times: ", argv[1], job.length, times);
    double begin = now();
    calls[call].repeat(&job, times);
    printf("; %.1f microseconds a call\n", (now() - begin) / times * 1e6);
    return 0;
}
