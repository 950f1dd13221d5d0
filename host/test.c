/*
 * Tests of the library from a C program, as the panel calls it.
 *
 *   test EXAMPLES [RANDOM_JOBS]
 *
 * EXAMPLES is the folder of example jobs.  The last line counts what passed and
 * what failed; the exit status is 0 where nothing failed.  Every outcome has to
 * come up among the random jobs, which wants about a thousand of them.
 */
#include <stdio.h>
#include <stdlib.h>
#include <string.h>

#include "by_hand.h"
#include "calls.h"
#include "draft.h"
#include "limit_jobs.h"
#include "numbers.h"
#include "random_jobs.h"
#include "vectors.h"

enum { RANDOM_JOBS = 200000, RANDOM_LEAST = 1000, RANDOM_MOST = 1000000000 };

/* ---- jobs by hand ---- */

static void try_vector(const struct vector *vector)
{
    uint8_t job[MVZ_JOB_MOST], record[MVZ_OUT_ROOM], normal[MVZ_NORMAL_MOST];
    const char *normal_hex = vector->normal != NULL ? vector->normal : vector->job;
    size_t length = bytes_of_hex(vector->job, job, sizeof job);
    size_t record_length = bytes_of_hex(vector->answer, record, sizeof record);
    size_t normal_length = bytes_of_hex(normal_hex, normal, sizeof normal);
    try_by_hand(vector->name, job, length, record, record_length, normal, normal_length);
}

static void test_vectors(void)
{
    for (size_t i = 0; i < vector_count; i++)
        try_vector(&vectors[i]);
}

/* ---- room ---- */

static void try_rooms(const uint8_t *job, size_t length)
{
    static const size_t outs[] = {0, 1, MVZ_OUT_ROOM - 1, MVZ_OUT_ROOM};
    static const size_t works[] = {0, 1, MVZ_WORK_ROOM - 1, MVZ_WORK_ROOM};
    for (unsigned o = 0; o < 4; o++)
        for (unsigned w = 0; w < 4; w++)
            for (unsigned again = 0; again < 4 && (o < 3 || w < 3); again++)
                expect_no_room(job, length, outs[o], works[w]);
}

/* Too little room comes before everything, in jobs of all sorts and too long ones. */
static void test_rooms(void)
{
    static uint8_t long_job[MVZ_JOB_MOST + 1];
    uint8_t job[MVZ_JOB_MOST];
    for (size_t i = 0; i < vector_count; i++) {
        calls_context(vectors[i].name, 0);
        try_rooms(job, bytes_of_hex(vectors[i].job, job, sizeof job));
    }
    calls_context("too long, and no room", 0);
    try_rooms(long_job, sizeof long_job);
}

/* A job in its normal form, written into every room up to a little more than enough. */
static void try_write_rooms(const uint8_t *job, size_t length)
{
    static const struct verdict no_room = {MVZ_NO_ROOM, 0};
    for (size_t room = 0; room < length; room++)
        expect_not_written(job, length, no_room, room);
    for (size_t room = length; room < length + 20; room++)
        expect_written(job, length, job, length, room);
}

static bool is_normal(const uint8_t *job, size_t length)
{
    static struct job read;
    uint8_t normal[MVZ_NORMAL_MOST];
    return checker_read(job, length, &read).refusal == 0
        && checker_normal_form(&read, normal) == length && memcmp(normal, job, length) == 0;
}

static void test_write_rooms(void)
{
    uint8_t job[MVZ_JOB_MOST];
    for (size_t i = 0; i < vector_count; i++) {
        size_t length = bytes_of_hex(vectors[i].job, job, sizeof job);
        calls_context(vectors[i].name, 0);
        if (is_normal(job, length))
            try_write_rooms(job, length);
    }
}

/* ---- jobs near sound ones ---- */

static bool is_sound(const uint8_t *job, size_t length)
{
    static struct job read;
    return checker_read(job, length, &read).refusal == 0;
}

static void try_prefixes(const uint8_t *job, size_t length)
{
    for (size_t n = 0; n < length; n++)
        compare_with_checker(job, n);
}

static void try_changes(uint8_t *job, size_t length)
{
    static const uint8_t values[] = {0, 1, 2, 3, 4, 5, 6, 7, 8, 9, 16, 127, 128, 254, 255};
    for (size_t i = 0; i < length; i++) {
        uint8_t was = job[i];
        for (unsigned j = 0; j < sizeof values; j++) {
            job[i] = values[j];
            compare_with_checker(job, length);
        }
        for (unsigned bit = 0; bit < 8; bit++) {
            job[i] = (uint8_t)(was ^ 1u << bit);
            compare_with_checker(job, length);
        }
        job[i] = was;
    }
}

static void test_near_sound(void)
{
    uint8_t job[MVZ_JOB_MOST];
    for (size_t i = 0; i < vector_count; i++) {
        size_t length = bytes_of_hex(vectors[i].job, job, sizeof job);
        if (!is_sound(job, length))
            continue;
        calls_context(vectors[i].name, 0);
        try_prefixes(job, length);
        try_changes(job, length);
    }
}

/* The longest job is too long for every change; a sample of places must do. */
static void test_near_longest(void)
{
    static struct draft_job draft;
    struct dice dice;
    dice_seed(&dice, 77);
    draft_longest(&draft, MVZ_CLASS, 1);
    calls_context("prefix of the longest job", 0);
    for (size_t n = 0; n < draft.length; n += 1 + dice_below(&dice, 60))
        compare_with_checker(draft.bytes, n);
    calls_context("change of the longest job", 0);
    for (size_t i = 0; i < draft.length; i += 1 + dice_below(&dice, 60)) {
        uint8_t was = draft.bytes[i];
        draft.bytes[i] = (uint8_t)(was + 1 + dice_below(&dice, 255));
        compare_with_checker(draft.bytes, draft.length);
        draft.bytes[i] = was;
    }
}

/* ---- random jobs ---- */

struct tally {
    unsigned long refused[MVZ_NO_ROOM];
    unsigned long chains[3][4];
    unsigned long empty[3][4];
    unsigned long edited, walked;
};

/* Where the chain or walk of a sound job stands. */
static const uint8_t *chain_record(const struct job *read, const uint8_t *job)
{
    size_t at = MVZ_RECORD_HEADER + 4;
    for (unsigned kind = MVZ_KIND_EDGES; kind <= MVZ_KIND_TETRAHEDRA; kind++)
        at += MVZ_RECORD_HEADER + (size_t)kind * read->list[kind - 1].count;
    return job + at;
}

static void count_outcome(struct tally *tally, const struct said *said, const uint8_t *job,
                          size_t length)
{
    const struct job *read = &said->job;
    struct verdict verdict = verdict_of(said->record);
    if (verdict.refusal != 0) {
        tally->refused[verdict.refusal]++;
        return;
    }
    tally->chains[read->question][read->d]++;
    tally->empty[read->question][read->d] += said->length == MVZ_RECORD_HEADER + 1;
    const uint8_t *chain = chain_record(read, job);
    size_t chain_length = (size_t)chain[0] | (size_t)chain[1] << 8;
    tally->walked += chain[4] == MVZ_KIND_WALK;
    tally->edited += chain + MVZ_RECORD_HEADER + chain_length < job + length;
}

static const char *const refusal_names[MVZ_NO_ROOM] = {
    "", "too long", "cut", "kind", "shape", "head", "vertex", "twice", "face", "chain item",
    "stale", "target", "rim open", "no filling"};

static void hit(unsigned long times, const char *what, unsigned d)
{
    printf("  %-12s %2u: %8lu\n", what, d, times);
    judge_alone(times > 0, "no random job came to this");
}

static void print_tally(const struct tally *tally, unsigned long jobs)
{
    printf("random jobs: %lu, outcomes by the checker and the library alike:\n", jobs);
    for (unsigned i = 1; i < MVZ_NO_ROOM; i++)
        hit(tally->refused[i], refusal_names[i], i);
    for (unsigned d = 1; d <= 3; d++)
        hit(tally->chains[MVZ_FILL][d] - tally->empty[MVZ_FILL][d], "fill, d", d);
    for (unsigned d = 0; d <= 2; d++)
        hit(tally->chains[MVZ_CLASS][d] - tally->empty[MVZ_CLASS][d], "class, d", d);
    for (unsigned d = 1; d <= 3; d++)
        hit(tally->empty[MVZ_FILL][d], "empty fill", d);
    for (unsigned d = 0; d <= 2; d++)
        hit(tally->empty[MVZ_CLASS][d], "empty class", d);
    printf("  with a walk     %8lu\n  with edits      %8lu\n", tally->walked, tally->edited);
    judge_alone(tally->walked > 0 && tally->edited > 0, "no random walk or no random edit");
}

static void try_random(uint64_t seed, struct tally *tally)
{
    static uint8_t job[RANDOM_JOB_MOST];
    struct dice dice;
    dice_seed(&dice, seed);
    enum job_size size = seed % 2000 == 1999 ? LARGE : seed % 50 == 49 ? MIDDLE : SMALL;
    size_t length = random_whole_job(&dice, size, job);
    if (dice_chance(&dice, 45))
        length = random_damage(&dice, job, length);
    calls_context("random job", seed);
    count_outcome(tally, compare_with_checker(job, length), job, length);
    if (dice_chance(&dice, 2)) {
        expect_no_room(job, length, dice_below(&dice, MVZ_OUT_ROOM), MVZ_WORK_ROOM);
        expect_no_room(job, length, MVZ_OUT_ROOM, dice_below(&dice, MVZ_WORK_ROOM));
    }
}

static void test_random(unsigned long jobs)
{
    struct tally tally;
    memset(&tally, 0, sizeof tally);
    for (unsigned long seed = 0; seed < jobs; seed++)
        try_random(seed, &tally);
    calls_context("outcomes of the random jobs", 0);
    print_tally(&tally, jobs);
}

/* ---- the example files ---- */

static size_t read_file(const char *folder, const char *name, const char *ending, uint8_t *out,
                        size_t room)
{
    char path[4096];
    snprintf(path, sizeof path, "%s/%s%s", folder, name, ending);
    FILE *file = fopen(path, "rb");
    if (file == NULL) {
        perror(path);
        exit(2);
    }
    size_t n = fread(out, 1, room, file);
    fclose(file);
    return n;
}

static void test_examples(const char *folder)
{
    static const char *const names[] = {"plate", "shell-012", "shell-moved", "open-rim"};
    for (unsigned i = 0; i < sizeof names / sizeof names[0]; i++) {
        uint8_t job[MVZ_JOB_MOST + 1], record[MVZ_OUT_ROOM];
        size_t length = read_file(folder, names[i], ".job", job, sizeof job);
        size_t record_length = read_file(folder, names[i], ".answer", record, sizeof record);
        calls_context(names[i], 0);
        expect_answer(job, length, record, record_length);
        compare_with_checker(job, length);
    }
}

int main(int argc, char **argv)
{
    unsigned jobs = RANDOM_JOBS;
    if (argc < 2 || argc > 3
        || (argc == 3 && !number_of(argv[2], RANDOM_LEAST, RANDOM_MOST, &jobs))) {
        fprintf(stderr, "usage: test EXAMPLES [RANDOM_JOBS], from %d to %d\n", RANDOM_LEAST,
                RANDOM_MOST);
        return 2;
    }
    calls_prepare();
    test_vectors();
    test_limits();
    test_rooms();
    test_write_rooms();
    test_examples(argv[1]);
    test_near_sound();
    test_near_longest();
    test_random(jobs);
    printf("host: %lu passed, %lu failed\n", calls_passed(), calls_failed());
    return calls_failed() == 0 ? 0 : 1;
}
