#include <string.h>

#include "mvozelanke.h"
#include "random_jobs.h"

enum { RECORDS_MOST = 80 };

/* Where the records of a job start, and where it ends. */
struct layout {
    unsigned records;
    size_t start[RECORDS_MOST + 1];
};

static size_t length_at(const uint8_t *p)
{
    return (size_t)p[0] | (size_t)p[1] << 8 | (size_t)p[2] << 16 | (size_t)p[3] << 24;
}

static struct layout layout_of(const uint8_t *job, size_t length)
{
    struct layout layout = {0, {0}};
    size_t at = 0;
    while (layout.records < RECORDS_MOST && length - at >= MVZ_RECORD_HEADER
           && length_at(job + at) <= length - at - MVZ_RECORD_HEADER) {
        layout.start[layout.records++] = at;
        at += MVZ_RECORD_HEADER + length_at(job + at);
    }
    layout.start[layout.records] = at;
    return layout;
}

/* ---- single damages; each hands back the new length ---- */

static size_t cut(struct dice *dice, uint8_t *job, size_t length)
{
    (void)job;
    return length == 0 ? 0 : dice_below(dice, (unsigned)length);
}

static size_t lengthen(struct dice *dice, uint8_t *job, size_t length)
{
    unsigned more = 1 + dice_below(dice, 20);
    for (unsigned i = 0; i < more && length < RANDOM_JOB_MOST; i++)
        job[length++] = (uint8_t)dice_below(dice, dice_chance(dice, 50) ? 8 : 256);
    return length;
}

static size_t change_bytes(struct dice *dice, uint8_t *job, size_t length)
{
    for (unsigned left = length == 0 ? 0 : 1 + dice_below(dice, 3); left > 0; left--)
        job[dice_below(dice, (unsigned)length)] =
            (uint8_t)dice_below(dice, dice_chance(dice, 70) ? 8 : 256);
    return length;
}

static size_t change_kind(struct dice *dice, uint8_t *job, size_t length)
{
    struct layout layout = layout_of(job, length);
    if (layout.records > 0) {
        uint8_t *kind = job + layout.start[dice_below(dice, layout.records)] + 4;
        kind[dice_chance(dice, 90) ? 0 : 1] = (uint8_t)dice_below(dice, 18);
    }
    return length;
}

static size_t change_head(struct dice *dice, uint8_t *job, size_t length)
{
    if (length >= 10) {
        unsigned which = dice_below(dice, 4);
        job[6 + which] = (uint8_t)dice_below(dice, which == 3 ? 3 : 6);
    }
    return length;
}

/* Puts a stretch of the job in place of another one. */
static size_t splice(uint8_t *job, size_t length, size_t at, size_t old, const uint8_t *new,
                     size_t new_length)
{
    if (length - old + new_length > RANDOM_JOB_MOST)
        return length;
    memmove(job + at + new_length, job + at + old, length - at - old);
    if (new_length > 0)
        memcpy(job + at, new, new_length);
    return length - old + new_length;
}

static void set_length(uint8_t *record, size_t length)
{
    for (unsigned i = 0; i < 4; i++)
        record[i] = (uint8_t)(length >> (8 * i) & 0xff);
}

/* Some bytes more or less in a record, with a length that tells the truth. */
static size_t resize_record(struct dice *dice, uint8_t *job, size_t length)
{
    struct layout layout = layout_of(job, length);
    if (layout.records == 0)
        return length;
    size_t start = layout.start[dice_below(dice, layout.records)];
    size_t size = length_at(job + start);
    size_t less = size == 0 ? 0 : dice_below(dice, size < 4 ? (unsigned)size + 1 : 4);
    uint8_t more[4];
    size_t grown = dice_chance(dice, 50) ? 0 : dice_below(dice, 4);
    for (size_t i = 0; i < grown; i++)
        more[i] = (uint8_t)dice_below(dice, 8);
    set_length(job + start, size - less + grown);
    return splice(job, length, start + MVZ_RECORD_HEADER + size - less, less, more, grown);
}

/* Another length in a record's header, and the same bytes. */
static size_t change_length(struct dice *dice, uint8_t *job, size_t length)
{
    struct layout layout = layout_of(job, length);
    if (layout.records > 0) {
        uint8_t *record = job + layout.start[dice_below(dice, layout.records)];
        record[dice_chance(dice, 80) ? 0 : dice_below(dice, 4)] ^=
            (uint8_t)(1u << dice_below(dice, 8));
    }
    return length;
}

static size_t drop_record(struct dice *dice, uint8_t *job, size_t length)
{
    struct layout layout = layout_of(job, length);
    if (layout.records == 0)
        return length;
    unsigned which = dice_below(dice, layout.records);
    size_t start = layout.start[which];
    return splice(job, length, start, layout.start[which + 1] - start, NULL, 0);
}

/* A copy of one record before another one. */
static size_t repeat_record(struct dice *dice, uint8_t *job, size_t length)
{
    static uint8_t copy[RANDOM_JOB_MOST];
    struct layout layout = layout_of(job, length);
    if (layout.records == 0)
        return length;
    unsigned which = dice_below(dice, layout.records);
    size_t size = layout.start[which + 1] - layout.start[which];
    memcpy(copy, job + layout.start[which], size);
    return splice(job, length, layout.start[dice_below(dice, layout.records + 1)], 0, copy, size);
}

/* One simplex over another in a list: it then stands twice, and the other nowhere. */
static size_t repeat_simplex(struct dice *dice, uint8_t *job, size_t length)
{
    struct layout layout = layout_of(job, length);
    unsigned k = 2 + dice_below(dice, 3);
    if (layout.records < 4)
        return length;
    uint8_t *list = job + layout.start[k - 1] + MVZ_RECORD_HEADER;
    unsigned count = (unsigned)(length_at(job + layout.start[k - 1]) / k);
    if (count > 1)
        memmove(list + dice_below(dice, count) * k, list + dice_below(dice, count) * k, k);
    return length;
}

/* One simplex less in a list, so that a facet or a position may be missing. */
static size_t drop_simplex(struct dice *dice, uint8_t *job, size_t length)
{
    struct layout layout = layout_of(job, length);
    unsigned k = 2 + dice_below(dice, 2);
    if (layout.records < 4)
        return length;
    uint8_t *record = job + layout.start[k - 1];
    unsigned count = (unsigned)(length_at(record) / k);
    if (count == 0)
        return length;
    size_t at = layout.start[k - 1] + MVZ_RECORD_HEADER + (size_t)dice_below(dice, count) * k;
    set_length(record, length_at(record) - k);
    return splice(job, length, at, k, NULL, 0);
}

/* A position or a step of the walk changed by a little. */
static size_t change_chain(struct dice *dice, uint8_t *job, size_t length)
{
    struct layout layout = layout_of(job, length);
    if (layout.records >= 5 && length_at(job + layout.start[4]) > 0) {
        unsigned size = (unsigned)length_at(job + layout.start[4]);
        job[layout.start[4] + MVZ_RECORD_HEADER + dice_below(dice, size)] ^=
            (uint8_t)(1u << dice_below(dice, 3));
    }
    return length;
}

static size_t over_long(struct dice *dice, uint8_t *job, size_t length)
{
    size_t to = dice_chance(dice, 50) ? MVZ_JOB_MOST + dice_below(dice, 3)
                                      : MVZ_JOB_MOST + dice_below(dice, 1000);
    while (length < to)
        job[length++] = (uint8_t)dice_below(dice, 256);
    return length;
}

static size_t noise_only(struct dice *dice, uint8_t *job, size_t length)
{
    (void)length;
    size_t size = dice_below(dice, 40);
    for (size_t i = 0; i < size; i++)
        job[i] = (uint8_t)dice_below(dice, dice_chance(dice, 80) ? 5 : 256);
    return size;
}

size_t random_damage(struct dice *dice, uint8_t *job, size_t length)
{
    typedef size_t damage(struct dice *, uint8_t *, size_t);
    static damage *const damages[] = {
        cut,           lengthen,    change_bytes,  change_bytes,   change_kind,  change_head,
        resize_record, change_length, drop_record, repeat_record,  repeat_simplex, drop_simplex,
        change_chain,  change_chain, over_long,    noise_only,
    };
    do
        length = damages[dice_below(dice, sizeof damages / sizeof damages[0])](dice, job, length);
    while (dice_chance(dice, 15));
    return length;
}
