#define _XOPEN_SOURCE 700
#include "calls.h"

#include <signal.h>
#include <stdio.h>
#include <stdlib.h>
#include <string.h>
#include <unistd.h>

#include "lend.h"

enum {
    SECONDS_MOST = 120, /* for one test with one context */
    SIGNAL_STACK = 65536,
    JOB_LENT_MOST = 8192,
    OUT_LENT_MOST = 8192,
    WORK_LENT_MOST = MVZ_WORK_ROOM + 8192,
    FAILURES_TOLD = 20
};

static struct lent job_lent, out_lent, work_lent;
static unsigned long passed, failed;
static const char *context = "start";
static uint64_t context_seed;
static unsigned turn; /* counts calls, to change the way buffers are lent */

unsigned long calls_passed(void)
{
    return passed;
}

unsigned long calls_failed(void)
{
    return failed;
}

/* ---- counting ---- */

static void print_hex(const uint8_t *bytes, size_t length)
{
    for (size_t i = 0; i < length; i++)
        printf("%s%02x", i == 0 ? "" : i % 32 == 0 ? "\n    " : " ", bytes[i]);
    printf("\n");
}

static bool count(bool good, const char *complaint)
{
    if (good) {
        passed++;
        return true;
    }
    failed++;
    if (failed <= FAILURES_TOLD)
        printf("FAIL %s (seed %llu): %s\n", context, (unsigned long long)context_seed, complaint);
    return false;
}

bool judge(bool good, const char *complaint, const uint8_t *job, size_t length)
{
    if (!count(good, complaint) && failed <= FAILURES_TOLD) {
        printf("  job, %zu bytes:\n    ", length);
        print_hex(job, length);
    }
    return good;
}

bool judge_alone(bool good, const char *complaint)
{
    return count(good, complaint);
}

static bool judge_record(const uint8_t *job, size_t length, const uint8_t *record,
                         size_t record_length, size_t given)
{
    bool good = given == record_length && memcmp(lent_at(&out_lent), record, record_length) == 0;
    if (!judge(good, "answer: another record was expected", job, length)
        && failed <= FAILURES_TOLD) {
        printf("  expected %zu bytes:\n    ", record_length);
        print_hex(record, record_length);
        printf("  got %zu bytes:\n    ", given);
        print_hex(lent_at(&out_lent), given <= out_lent.length ? given : 0);
    }
    return good;
}

/* ---- calls that do not come back ---- */

/*
 * The call broke off or hangs.  Printing from here is not safe in general; it is
 * the last thing the program does, and the job's bytes are worth the try.
 */
static void tell_and_end(int number)
{
    judge(false,
          number == SIGALRM ? "a call does not come back"
                            : "a call broke off; did it touch a byte that was not lent?",
          lent_at(&job_lent), job_lent.length);
    printf("host: %lu passed, %lu failed\n", passed, failed);
    fflush(stdout);
    _exit(1);
}

/* On a stack of its own, since a call may have run out of the usual one. */
static void catch_signals(void)
{
    static const int numbers[] = {SIGSEGV, SIGBUS, SIGILL, SIGFPE, SIGABRT, SIGTRAP, SIGALRM};
    static uint8_t stack_bytes[SIGNAL_STACK];
    stack_t stack = {.ss_sp = stack_bytes, .ss_size = sizeof stack_bytes};
    struct sigaction action = {.sa_handler = tell_and_end, .sa_flags = SA_ONSTACK};
    bool good = sigaltstack(&stack, NULL) == 0;
    for (unsigned i = 0; i < sizeof numbers / sizeof numbers[0]; i++)
        good &= sigaction(numbers[i], &action, NULL) == 0;
    if (!good) {
        perror("catch_signals");
        exit(2);
    }
}

void calls_context(const char *what, uint64_t seed)
{
    context = what;
    context_seed = seed;
    alarm(SECONDS_MOST);
}

void calls_prepare(void)
{
    lend_prepare(&job_lent, JOB_LENT_MOST);
    lend_prepare(&out_lent, OUT_LENT_MOST);
    lend_prepare(&work_lent, WORK_LENT_MOST);
    catch_signals();
}

/* ---- lending ---- */

static enum side side_of(unsigned bit)
{
    return turn >> bit & 1 ? FRONT : BACK;
}

/* Every fifth call lends more than is asked for. */
static size_t ample(size_t least, size_t more)
{
    return turn % 5 == 0 ? least + turn % more : least;
}

static void lend_job(const uint8_t *job, size_t length)
{
    turn++;
    lend_bytes(&job_lent, job, length, side_of(0));
}

/* A null pointer stands for no bytes every other time. */
static uint8_t *pointer(const struct lent *lent)
{
    return lent->length == 0 && turn % 2 == 0 ? NULL : lent_at(lent);
}

static bool job_is_kept(const uint8_t *job, size_t length)
{
    return lend_kept_outside(&job_lent)
        && (length == 0 || memcmp(lent_at(&job_lent), job, length) == 0);
}

typedef void lending(struct lent *, size_t, enum side);

static size_t call_answer(const uint8_t *job, size_t length, size_t out_length, size_t work_length,
                          lending *lend_work)
{
    lend_job(job, length);
    lend(&out_lent, out_length, side_of(1));
    lend_work(&work_lent, work_length, side_of(2));
    return mvz_answer(pointer(&job_lent), length, pointer(&out_lent), out_length,
                      pointer(&work_lent), work_length);
}

static uint64_t call_write(const uint8_t *job, size_t length, size_t out_length)
{
    lend_job(job, length);
    lend(&out_lent, out_length, side_of(1));
    return mvz_write(pointer(&job_lent), length, pointer(&out_lent), out_length);
}

/* ---- the answer call ---- */

bool expect_answer(const uint8_t *job, size_t length, const uint8_t *record, size_t record_length)
{
    /* All of the work memory is noise every fourth time: that is what takes long. */
    size_t given = call_answer(job, length, ample(MVZ_OUT_ROOM, 1000), ample(MVZ_WORK_ROOM, 8000),
                               turn % 4 == 0 ? lend : lend_used);
    bool good = judge_record(job, length, record, record_length, given);
    good &= judge(lend_kept_outside(&out_lent) && lend_kept_from(&out_lent, record_length),
                  "answer: an output byte past the record changed", job, length);
    good &= judge(lend_all_zero(&work_lent), "answer: the work memory is not all zero", job, length);
    good &= judge(lend_kept_outside(&work_lent),
                  "answer: a byte beside the work memory changed", job, length);
    good &= judge(job_is_kept(job, length), "answer: a byte of the job changed", job, length);
    return good;
}

bool expect_no_room(const uint8_t *job, size_t length, size_t out_length, size_t work_length)
{
    size_t given = call_answer(job, length, out_length, work_length, lend);
    bool good = judge(given == 0, "answer: 0 was expected for too little room", job, length);
    good &= judge(lend_kept_outside(&out_lent) && lend_kept_from(&out_lent, 0)
                      && lend_kept_outside(&work_lent) && lend_kept_from(&work_lent, 0)
                      && job_is_kept(job, length),
                  "answer: too little room, and a byte changed", job, length);
    return good;
}

/* ---- the write call ---- */

bool expect_written(const uint8_t *job, size_t length, const uint8_t *normal, size_t normal_length,
                    size_t room)
{
    uint64_t result = call_write(job, length, room);
    bool good = judge(result == normal_length, "write: another result was expected", job, length);
    good &= judge(memcmp(lent_at(&out_lent), normal, normal_length) == 0,
                  "write: another normal form was expected", job, length);
    good &= judge(lend_kept_outside(&out_lent) && lend_kept_from(&out_lent, normal_length)
                      && job_is_kept(job, length),
                  "write: a byte past the normal form changed", job, length);
    return good;
}

bool expect_not_written(const uint8_t *job, size_t length, struct verdict verdict, size_t room)
{
    uint64_t result = call_write(job, length, room);
    bool good = judge(mvz_refusal(result) == verdict.refusal && mvz_place(result) == verdict.place,
                      "write: another refusal was expected", job, length);
    good &= judge(lend_kept_outside(&out_lent) && lend_kept_from(&out_lent, 0)
                      && job_is_kept(job, length),
                  "write: refused, and a byte changed", job, length);
    return good;
}

/* ---- both calls ---- */

/* Exactly as much room as is wanted, or more. */
static size_t enough(size_t length)
{
    return turn % 2 == 0 ? length : length + 1 + turn % 100;
}

bool expect_sound(const uint8_t *job, size_t length, const uint8_t *record, size_t record_length,
                  const uint8_t *normal, size_t normal_length)
{
    static const struct verdict no_room = {MVZ_NO_ROOM, 0};
    bool good = expect_answer(job, length, record, record_length);
    good &= expect_not_written(job, length, no_room, normal_length - 1);
    good &= expect_written(job, length, normal, normal_length, enough(normal_length));
    /* Read back, it has the same answer and is written as it stands. */
    if (length != normal_length || memcmp(job, normal, length) != 0) {
        good &= expect_answer(normal, normal_length, record, record_length);
        good &= expect_written(normal, normal_length, normal, normal_length, enough(normal_length));
    }
    return good;
}

bool expect_refused(const uint8_t *job, size_t length, struct verdict verdict)
{
    uint8_t record[MVZ_REFUSAL_RECORD];
    checker_refusal_record(verdict, record);
    bool good = expect_answer(job, length, record, sizeof record);
    good &= expect_not_written(job, length, verdict, turn % 3 == 0 ? 0 : MVZ_NORMAL_MOST);
    return good;
}

/* Tries all chains where there are few enough, and holds elimination to that. */
static void solve_twice(const uint8_t *job, size_t length, struct said *said)
{
    uint8_t tried[MVZ_OUT_ROOM];
    said->length = checker_solve(&said->job, ELIMINATE, said->record);
    if (checker_choices(&said->job) > TRY_ALL_MOST)
        return;
    size_t tried_length = checker_solve(&said->job, TRY_ALL_CHAINS, tried);
    judge(tried_length == said->length && memcmp(tried, said->record, tried_length) == 0,
          "checker: elimination and trying all chains differ", job, length);
    memcpy(said->record, tried, tried_length);
    said->length = tried_length;
}

const struct said *compare_with_checker(const uint8_t *job, size_t length)
{
    static struct said said;
    struct verdict verdict = checker_read(job, length, &said.job);
    if (verdict.refusal != 0) {
        said.length = checker_refusal_record(verdict, said.record);
        expect_refused(job, length, verdict);
        return &said;
    }
    uint8_t normal[MVZ_NORMAL_MOST];
    size_t normal_length = checker_normal_form(&said.job, normal);
    solve_twice(job, length, &said);
    expect_sound(job, length, said.record, said.length, normal, normal_length);
    return &said;
}
