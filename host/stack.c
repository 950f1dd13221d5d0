/*
 * The deepest stack of each exported call.  A thread runs the call on a stack
 * that was painted before; the lowest byte without paint tells how deep it went.
 * What the thread needs without any call is taken off.
 */
#define _GNU_SOURCE
#include <pthread.h>
#include <stdbool.h>
#include <stdio.h>
#include <stdlib.h>
#include <string.h>
#include <sys/mman.h>

#include "limit_jobs.h"
#include "mvozelanke.h"
#include "random_jobs.h"

enum { STACK_SIZE = 4 << 20, PAINT = 0xa5, RANDOM_JOBS = 150 };

enum call { NO_CALL, ANSWER, WRITE };

struct errand {
    enum call call;
    const uint8_t *job;
    size_t length;
};

static uint8_t *stack;

static void *run_errand(void *argument)
{
    static uint8_t out[8192], work[MVZ_WORK_ROOM];
    const struct errand *errand = argument;
    if (errand->call == ANSWER)
        mvz_answer(errand->job, errand->length, out, sizeof out, work, sizeof work);
    else if (errand->call == WRITE)
        mvz_write(errand->job, errand->length, out, sizeof out);
    return NULL;
}

static void insist(bool good, const char *what)
{
    if (!good) {
        fprintf(stderr, "stack: %s failed\n", what);
        exit(2);
    }
}

static size_t depth_of(enum call call, const uint8_t *job, size_t length)
{
    struct errand errand = {call, job, length};
    pthread_attr_t attributes;
    pthread_t thread;
    memset(stack, PAINT, STACK_SIZE);
    insist(pthread_attr_init(&attributes) == 0, "pthread_attr_init");
    insist(pthread_attr_setstack(&attributes, stack, STACK_SIZE) == 0, "pthread_attr_setstack");
    insist(pthread_create(&thread, &attributes, run_errand, &errand) == 0, "pthread_create");
    insist(pthread_join(thread, NULL) == 0, "pthread_join");
    pthread_attr_destroy(&attributes);
    size_t untouched = 0;
    while (untouched < STACK_SIZE && stack[untouched] == PAINT)
        untouched++;
    return STACK_SIZE - untouched;
}

static size_t deepest(enum call call)
{
    static struct draft_job draft;
    static uint8_t job[RANDOM_JOB_MOST];
    static const uint8_t questions[][2] = {
        {MVZ_CLASS, 1}, {MVZ_CLASS, 2}, {MVZ_FILL, 2}, {MVZ_FILL, 3}};
    size_t most = 0;
    for (unsigned i = 0; i < sizeof questions / sizeof questions[0]; i++) {
        draft_longest(&draft, questions[i][0], questions[i][1]);
        size_t depth = depth_of(call, draft.bytes, draft.length);
        most = depth > most ? depth : most;
    }
    for (unsigned seed = 0; seed < RANDOM_JOBS; seed++) {
        struct dice dice;
        dice_seed(&dice, seed);
        size_t length = random_whole_job(&dice, seed % 50 == 0 ? LARGE : SMALL, job);
        if (seed % 3 == 0)
            length = random_damage(&dice, job, length);
        size_t depth = depth_of(call, job, length);
        most = depth > most ? depth : most;
    }
    return most;
}

int main(void)
{
    stack = mmap(NULL, STACK_SIZE, PROT_READ | PROT_WRITE, MAP_PRIVATE | MAP_ANONYMOUS, -1, 0);
    insist(stack != MAP_FAILED, "mmap");
    size_t none = deepest(NO_CALL);
    printf("stack of mvz_answer: %zu bytes\n", deepest(ANSWER) - none);
    printf("stack of mvz_write:  %zu bytes\n", deepest(WRITE) - none);
    return 0;
}
