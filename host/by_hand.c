#include "by_hand.h"

#include <string.h>

#include "calls.h"

struct verdict verdict_of(const uint8_t *record)
{
    struct verdict verdict = {0, 0};
    if (record[4] == MVZ_KIND_REFUSAL) {
        verdict.refusal = (unsigned)record[6] | (unsigned)record[7] << 8;
        verdict.place = (uint32_t)record[8] | (uint32_t)record[9] << 8 | (uint32_t)record[10] << 16
                      | (uint32_t)record[11] << 24;
    }
    return verdict;
}

static bool is_refused_in_reading(struct verdict verdict)
{
    return verdict.refusal >= MVZ_TOO_LONG && verdict.refusal <= MVZ_BAD_TARGET;
}

/* Holds the checker to an answer that is known by hand. */
static void try_checker(const uint8_t *job, size_t length, const uint8_t *record,
                        size_t record_length, const uint8_t *normal, size_t normal_length)
{
    struct job read;
    uint8_t out[MVZ_NORMAL_MOST];
    size_t n = checker_answer(job, length, out);
    judge(n == record_length && memcmp(out, record, n) == 0,
          "checker: another answer is known by hand", job, length);
    if (checker_read(job, length, &read).refusal != 0)
        return;
    n = checker_solve(&read, ELIMINATE, out);
    judge(n == record_length && memcmp(out, record, n) == 0,
          "checker: elimination gives another answer", job, length);
    n = checker_normal_form(&read, out);
    judge(n == normal_length && memcmp(out, normal, n) == 0,
          "checker: another normal form is known by hand", job, length);
}

void try_by_hand(const char *name, const uint8_t *job, size_t length, const uint8_t *record,
                 size_t record_length, const uint8_t *normal, size_t normal_length)
{
    struct verdict verdict = verdict_of(record);
    calls_context(name, 0);
    try_checker(job, length, record, record_length, normal, normal_length);
    if (is_refused_in_reading(verdict))
        expect_refused(job, length, verdict);
    else
        expect_sound(job, length, record, record_length, normal, normal_length);
}
