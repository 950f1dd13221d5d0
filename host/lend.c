#define _GNU_SOURCE
#include "lend.h"

#include <stdio.h>
#include <stdlib.h>
#include <string.h>
#include <sys/mman.h>
#include <unistd.h>

/*
 * Noise is worked out and not stored, eight bytes at a time: quick enough under an
 * emulator too, where long copies and comparisons are slow.
 */
enum { WORD = sizeof(uint64_t), MARGIN = 256, ENDS = 2048, ALL_PAGES_EVERY = 16 };

/* No byte of it is zero: the lowest bit of each is set. */
static uint64_t noise_word(uint64_t salt, size_t word)
{
    return (salt + word) * UINT64_C(0x9e3779b97f4a7c15) | UINT64_C(0x0101010101010101);
}

static uint8_t noise_byte(uint64_t salt, size_t at)
{
    uint64_t word = noise_word(salt, at / WORD);
    uint8_t bytes[WORD];
    memcpy(bytes, &word, WORD);
    return bytes[at % WORD];
}

void lend_prepare(struct lent *lent, size_t most)
{
    size_t page = (size_t)sysconf(_SC_PAGESIZE);
    size_t size = (most + page - 1) / page * page + page;
    uint8_t *all = mmap(NULL, size + 2 * page, PROT_NONE, MAP_PRIVATE | MAP_ANONYMOUS, -1, 0);
    if (all == MAP_FAILED || mprotect(all + page, size, PROT_READ | PROT_WRITE) != 0) {
        perror("lend_prepare");
        exit(2);
    }
    memset(lent, 0, sizeof *lent);
    lent->pages = all + page;
    lent->size = size;
}

/* ---- noise ---- */

static void make_noise(struct lent *lent, size_t from, size_t to)
{
    size_t at = from;
    for (; at < to && at % WORD != 0; at++)
        lent->pages[at] = noise_byte(lent->salt, at);
    for (; to - at >= WORD; at += WORD) {
        uint64_t word = noise_word(lent->salt, at / WORD);
        memcpy(lent->pages + at, &word, WORD);
    }
    for (; at < to; at++)
        lent->pages[at] = noise_byte(lent->salt, at);
}

static bool is_noise(const struct lent *lent, size_t from, size_t to)
{
    uint64_t changes = 0;
    size_t at = from;
    for (; at < to && at % WORD != 0; at++)
        changes |= lent->pages[at] ^ noise_byte(lent->salt, at);
    for (; to - at >= WORD; at += WORD) {
        uint64_t word;
        memcpy(&word, lent->pages + at, WORD);
        changes |= word ^ noise_word(lent->salt, at / WORD);
    }
    for (; at < to; at++)
        changes |= lent->pages[at] ^ noise_byte(lent->salt, at);
    return changes == 0;
}

/* ---- lending ---- */

static size_t less(size_t a, size_t b)
{
    return a < b ? a : b;
}

/* Chooses the bytes; those beside are watched each time, all of the pages now and then. */
static void choose(struct lent *lent, size_t length, enum side side)
{
    if (length > lent->size) {
        fprintf(stderr, "a lent buffer of %zu bytes does not fit\n", length);
        exit(2);
    }
    lent->salt++;
    lent->start = side == FRONT ? 0 : lent->size - length;
    lent->length = length;
    size_t margin = lent->salt % ALL_PAGES_EVERY == 0 ? lent->size : MARGIN;
    lent->noisy_from = lent->start - less(lent->start, margin);
    lent->noisy_to = lent->start + length + less(lent->size - lent->start - length, margin);
}

void lend(struct lent *lent, size_t length, enum side side)
{
    choose(lent, length, side);
    make_noise(lent, lent->noisy_from, lent->noisy_to);
}

void lend_used(struct lent *lent, size_t length, enum side side)
{
    choose(lent, length, side);
    size_t front = lent->start + less(length, ENDS);
    size_t back = lent->start + length - less(length, ENDS);
    make_noise(lent, lent->noisy_from, front);
    make_noise(lent, back, lent->noisy_to);
}

void lend_bytes(struct lent *lent, const uint8_t *bytes, size_t length, enum side side)
{
    lend(lent, length, side);
    if (length > 0)
        memcpy(lent_at(lent), bytes, length);
}

uint8_t *lent_at(const struct lent *lent)
{
    return lent->pages + lent->start;
}

bool lend_kept_outside(const struct lent *lent)
{
    return is_noise(lent, lent->noisy_from, lent->start)
        && is_noise(lent, lent->start + lent->length, lent->noisy_to);
}

bool lend_kept_from(const struct lent *lent, size_t from)
{
    return from <= lent->length
        && is_noise(lent, lent->start + from, lent->start + lent->length);
}

bool lend_all_zero(const struct lent *lent)
{
    const uint8_t *p = lent_at(lent);
    uint64_t ones = 0;
    size_t at = 0;
    for (; lent->length - at >= 4 * WORD; at += 4 * WORD) {
        uint64_t word[4];
        memcpy(word, p + at, sizeof word);
        ones |= word[0] | word[1] | word[2] | word[3];
    }
    for (; at < lent->length; at++)
        ones |= p[at];
    return ones == 0;
}
