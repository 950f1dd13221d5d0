/*
 * Buffers to lend to the library.  Each stands between two pages that nobody may
 * touch, flush against the one or the other, and is filled with noise before
 * each call, so that a byte read or written outside it does not go unseen.
 */
#ifndef LEND_H
#define LEND_H

#include <stdbool.h>
#include <stddef.h>
#include <stdint.h>

enum side { FRONT, BACK };

struct lent {
    uint8_t *pages; /* what may be touched */
    size_t size;    /* of the pages */
    size_t start;   /* what is lent, as a part of the pages */
    size_t length;
    size_t noisy_from, noisy_to; /* where the pages held noise when lent */
    uint64_t salt;               /* of that noise */
};

/* Makes the pages, with room for at least `most` bytes. */
void lend_prepare(struct lent *lent, size_t most);

/* Lends `length` bytes flush against one side.  They hold noise without a zero byte. */
void lend(struct lent *lent, size_t length, enum side side);

/* The same, but only the two ends hold noise; the rest is as the last call left it. */
void lend_used(struct lent *lent, size_t length, enum side side);

/* Lends a copy of these bytes. */
void lend_bytes(struct lent *lent, const uint8_t *bytes, size_t length, enum side side);

/* The lent bytes. */
uint8_t *lent_at(const struct lent *lent);

/* Whether every noisy byte that was not lent keeps its value. */
bool lend_kept_outside(const struct lent *lent);

/* Whether the lent bytes from number `from` on keep their values. */
bool lend_kept_from(const struct lent *lent, size_t from);

/* Whether all lent bytes are zero. */
bool lend_all_zero(const struct lent *lent);

#endif
