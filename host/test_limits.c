/* Tests at the limits: the largest that is accepted, and one more. */
#include <stdio.h>
#include <string.h>

#include "by_hand.h"
#include "calls.h"
#include "limit_jobs.h"

/* A draft that is its own normal form, with its answer in hex. */
static void try_draft(const char *name, const struct draft_job *draft, const char *answer)
{
    uint8_t record[MVZ_OUT_ROOM];
    size_t record_length = bytes_of_hex(answer, record, sizeof record);
    try_by_hand(name, draft->bytes, draft->length, record, record_length, draft->bytes,
                draft->length);
}

/*
 * What a list may hold, what a small job's list may hold for the answer call (it lends
 * shorter arrays then), and one more of each.
 */
static void try_count(unsigned count, const char *of, const struct draft_job *draft,
                      const char *answer)
{
    char name[32];
    snprintf(name, sizeof name, "%u %s", count, of);
    try_draft(name, draft, answer);
}

static void test_edge_count(void)
{
    static const unsigned counts[] = {256, 257, 512, 513};
    static const unsigned vertices_1_and_2[] = {1, 2};
    static struct draft_job draft;
    for (unsigned i = 0; i < 4; i++) {
        draft_start(&draft);
        draft_head(&draft, MVZ_FILL, 1, 256);
        draft_star_edges(&draft, counts[i]);
        draft_hex(&draft, "00 00 00 00 03 00 00 00 00 00 04 00");
        draft_positions(&draft, vertices_1_and_2, 2);
        try_count(counts[i], "edges", &draft,
                  counts[i] <= 512 ? "05 00 00 00 10 00 01 00 01 00 02"
                                   : "06 00 00 00 11 00 04 00 0a 00 00 00");
    }
}

/* The rim of the first triangle: no chain but the empty one is smaller than it alone. */
static void test_triangle_count(void)
{
    static const unsigned counts[] = {128, 129, 512, 513};
    static const unsigned rim_of_012[] = {0, 1, 15};
    static struct draft_job draft;
    for (unsigned i = 0; i < 4; i++) {
        draft_start(&draft);
        draft_head(&draft, MVZ_FILL, 2, 16);
        draft_choices(&draft, 16, 2, 120);
        draft_choices(&draft, 16, 3, counts[i]);
        draft_hex(&draft, "00 00 00 00 04 00");
        draft_positions(&draft, rim_of_012, 3);
        try_count(counts[i], "triangles", &draft,
                  counts[i] <= 512 ? "04 00 00 00 10 00 02 00 01 02"
                                   : "06 00 00 00 11 00 04 00 00 01 00 00");
    }
}

/*
 * Triangles 012 013 023 123 of 15 vertices stand at 0, 1, 13 and 91.  Without
 * tetrahedra nothing fills their shell.
 */
static void test_tetrahedron_count(void)
{
    static const unsigned counts[] = {0, 1, 512, 513};
    static const char *const answers[] = {
        "06 00 00 00 11 00 0d 00 00 00 00 00",
        "05 00 00 00 10 00 03 00 01 02 03",
        "05 00 00 00 10 00 03 00 01 02 03",
        "06 00 00 00 11 00 04 00 3d 06 00 00", /* at 10 + 216 + 1371 */
    };
    static const unsigned rim_of_0123[] = {0, 1, 13, 91};
    static struct draft_job draft;
    for (unsigned i = 0; i < 4; i++) {
        draft_start(&draft);
        draft_head(&draft, MVZ_FILL, 3, 15);
        draft_choices(&draft, 15, 2, 105);
        draft_choices(&draft, 15, 3, 455);
        draft_choices(&draft, 15, 4, counts[i]);
        draft_positions(&draft, rim_of_0123, 4);
        try_count(counts[i], "tetrahedra", &draft, answers[i]);
    }
}

/* With no triangles every class is one chain, so all 512 edges come back as they stand. */
static void test_chain_length(void)
{
    static struct draft_job draft;
    uint8_t record[MVZ_OUT_ROOM] = {0x01, 0x04, 0, 0, MVZ_KIND_ANSWER, 0, 1};
    draft_start(&draft);
    draft_head(&draft, MVZ_CLASS, 1, 256);
    draft_star_edges(&draft, 512);
    draft_hex(&draft, "00 00 00 00 03 00 00 00 00 00 04 00");
    size_t before_chain = draft.length;
    draft_first_positions(&draft, 512);
    memcpy(record + 7, draft.bytes + 16, 1024);
    try_by_hand("512 positions", draft.bytes, draft.length, record, 7 + 1024, draft.bytes,
                draft.length);
    draft.length = before_chain;
    draft_first_positions(&draft, 513);
    try_draft("513 positions", &draft, "06 00 00 00 11 00 04 00 1c 04 00 00");
}

static const char plate_class_1[] =
    "04 00 00 00 01 00 02 01 03 00 06 00 00 00 02 00 00 01 00 02 01 02 "
    "03 00 00 00 03 00 00 01 02 00 00 00 00 04 00";

static void try_walk(const char *name, unsigned steps, unsigned round, const char *answer,
                     const char *normal_chain)
{
    static struct draft_job draft, normal;
    uint8_t vertex[2048], record[MVZ_OUT_ROOM];
    for (unsigned i = 0; i < steps; i++)
        vertex[i] = (uint8_t)(i % round);
    draft_start(&draft);
    draft_hex(&draft, plate_class_1);
    draft_start(&normal);
    draft_hex(&normal, plate_class_1);
    draft_hex(&normal, normal_chain);
    draft_record(&draft, MVZ_KIND_WALK, vertex, steps);
    size_t record_length = bytes_of_hex(answer, record, sizeof record);
    try_by_hand(name, draft.bytes, draft.length, record, record_length, normal.bytes,
                normal.length);
}

/* Up and down edge 01, then round the plate; a walk that is one step off stands still. */
static void test_walk_length(void)
{
    try_walk("walk of 1024 steps", 1024, 2, "03 00 00 00 10 00 01 00 01",
             "02 00 00 00 05 00 00 00");
    try_walk("walk of 1023 steps", 1023, 3, "01 00 00 00 10 00 01",
             "06 00 00 00 05 00 00 00 01 00 02 00");
    try_walk("walk whose last step stands still", 1024, 3, "06 00 00 00 11 00 09 00 2a 04 00 00",
             "");
    try_walk("walk of 1025 steps", 1025, 2, "06 00 00 00 11 00 04 00 25 00 00 00", "");
}

static void test_vertex_count(void)
{
    static const unsigned last_vertex[] = {255};
    static struct draft_job draft;
    for (unsigned v = 256; v <= 257; v++) {
        draft_start(&draft);
        draft_head(&draft, MVZ_CLASS, 0, v);
        draft_hex(&draft, "00 00 00 00 02 00 00 00 00 00 03 00 00 00 00 00 04 00");
        draft_positions(&draft, last_vertex, 1);
        if (v == 256)
            try_draft("v 256", &draft, "02 00 00 00 10 00 00 ff");
        else
            try_draft("v 257", &draft, "06 00 00 00 11 00 05 00 00 00 00 00");
    }
}

static const char shell_012[] =
    "04 00 00 00 01 00 01 02 04 00 0c 00 00 00 02 00 00 01 00 02 00 03 01 02 01 03 02 03 "
    "0c 00 00 00 03 00 00 01 02 00 01 03 00 02 03 01 02 03 00 00 00 00 04 00 "
    "06 00 00 00 05 00 00 00 01 00 03 00 ";
static const char shell_moved[] =
    "04 00 00 00 01 00 01 02 04 00 0c 00 00 00 02 00 00 01 00 02 00 03 01 02 01 03 02 03 "
    "0c 00 00 00 03 00 00 01 03 00 02 03 01 02 03 00 01 02 00 00 00 00 04 00 "
    "06 00 00 00 05 00 00 00 01 00 03 00 ";
static const char stay[] = "09 00 00 00 07 00 03 00 00 00 00 00 00 01 02 ";
static const char move_up[] = "09 00 00 00 07 00 03 00 00 00 03 00 00 01 02 ";
static const char move_down[] = "09 00 00 00 07 00 03 00 03 00 00 00 00 01 02 ";

/* Both the first and the last of 64 edits count, and the 65th may not stand there. */
static void test_edit_count(void)
{
    static struct draft_job draft;
    uint8_t record[MVZ_OUT_ROOM], normal[MVZ_NORMAL_MOST];
    size_t normal_length = bytes_of_hex(shell_moved, normal, sizeof normal);
    size_t record_length =
        bytes_of_hex("0a 00 00 00 10 00 02 00 01 03 00 02 03 01 02 03", record, sizeof record);
    draft_start(&draft);
    draft_hex(&draft, shell_012);
    for (unsigned i = 0; i < 63; i++)
        draft_hex(&draft, stay);
    draft_hex(&draft, move_up);
    try_by_hand("64 edits, the last one moves", draft.bytes, draft.length, record, record_length,
                normal, normal_length);
    draft_hex(&draft, move_down);
    try_draft("a 65th edit", &draft, "06 00 00 00 11 00 03 00 00 04 00 00");

    normal_length = bytes_of_hex(shell_012, normal, sizeof normal);
    record_length = bytes_of_hex("04 00 00 00 10 00 02 00 01 02", record, sizeof record);
    draft_start(&draft);
    draft_hex(&draft, shell_012);
    for (unsigned i = 0; i < 32; i++) {
        draft_hex(&draft, move_up);
        draft_hex(&draft, move_down);
    }
    try_by_hand("64 edits up and down", draft.bytes, draft.length, record, record_length, normal,
                normal_length);
}

static void test_longest(void)
{
    static const struct verdict too_long = {MVZ_TOO_LONG, 0};
    static const struct { unsigned question, d; } asked[] = {
        {MVZ_CLASS, 1}, {MVZ_CLASS, 2}, {MVZ_FILL, 2}, {MVZ_FILL, 3}};
    static struct draft_job draft;
    for (unsigned i = 0; i < 4; i++) {
        calls_context("longest job", i);
        draft_longest(&draft, asked[i].question, asked[i].d);
        judge_alone(draft.length == MVZ_JOB_MOST, "the longest job has another length");
        compare_with_checker(draft.bytes, draft.length);
        calls_context("one byte too long", i);
        draft.bytes[draft.length] = 0;
        expect_refused(draft.bytes, draft.length + 1, too_long);
    }
}

/* Far too long: the library must not be led astray by lengths of 20 bits. */
static void test_far_too_long(void)
{
    static uint8_t job[1 << 20], out[MVZ_OUT_ROOM], work[MVZ_WORK_ROOM];
    static const uint8_t record[] = {6, 0, 0, 0, MVZ_KIND_REFUSAL, 0, MVZ_TOO_LONG, 0, 0, 0, 0, 0};
    calls_context("far too long", 0);
    bytes_of_hex(shell_012, job, sizeof job);
    size_t n = mvz_answer(job, sizeof job, out, sizeof out, work, sizeof work);
    judge_alone(n == sizeof record && memcmp(out, record, n) == 0,
                "answer: refusal 1 was expected");
    judge_alone(mvz_write(job, sizeof job, out, sizeof out) == (uint64_t)MVZ_TOO_LONG << 32,
                "write: refusal 1 was expected");
}

void test_limits(void)
{
    test_edge_count();
    test_triangle_count();
    test_tetrahedron_count();
    test_chain_length();
    test_walk_length();
    test_vertex_count();
    test_edit_count();
    test_longest();
    test_far_too_long();
}
