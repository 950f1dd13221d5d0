/*
 * Calls of the library, each held to what is expected of it down to every lent
 * byte.  What passed and what failed is counted here.
 */
#ifndef CALLS_H
#define CALLS_H

#include <stdbool.h>
#include <stddef.h>
#include <stdint.h>

#include "checker.h"

/* What is tested now, for the line that tells of a failure. */
void calls_context(const char *what, uint64_t seed);

/* Prepares the buffers; before any other call. */
void calls_prepare(void);

/* Counts one comparison; tells of it, with the job's bytes, where it failed. */
bool judge(bool good, const char *complaint, const uint8_t *job, size_t length);

/* Counts a comparison that has to do with no job. */
bool judge_alone(bool good, const char *complaint);

/* The answer call must give exactly this record. */
bool expect_answer(const uint8_t *job, size_t length, const uint8_t *record, size_t record_length);

/* The answer call with too little room must return 0 and write nothing. */
bool expect_no_room(const uint8_t *job, size_t length, size_t out_length, size_t work_length);

/* The write call, with this much output lent, must give exactly this normal form. */
bool expect_written(const uint8_t *job, size_t length, const uint8_t *normal, size_t normal_length,
                    size_t room);

/* The write call, with this much output lent, must refuse and write nothing. */
bool expect_not_written(const uint8_t *job, size_t length, struct verdict verdict, size_t room);

/* A sound job: answered, written, not written in less room, and read back. */
bool expect_sound(const uint8_t *job, size_t length, const uint8_t *record, size_t record_length,
                  const uint8_t *normal, size_t normal_length);

/* A job whose reading is refused: both calls say so. */
bool expect_refused(const uint8_t *job, size_t length, struct verdict verdict);

/* What the checker said of a job. */
struct said {
    struct job job; /* where it could be read */
    uint8_t record[MVZ_OUT_ROOM];
    size_t length; /* of the record */
};

/* Both calls must do as the checker does; what it said, until the next comparison. */
const struct said *compare_with_checker(const uint8_t *job, size_t length);

unsigned long calls_passed(void);
unsigned long calls_failed(void);

#endif
