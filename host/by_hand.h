/*
 * Jobs whose answers are known by hand, held against the checker and then against
 * the library.
 */
#ifndef BY_HAND_H
#define BY_HAND_H

#include <stddef.h>
#include <stdint.h>

#include "checker.h"

/* The refusal that an answer record tells of; 0 where it is a chain. */
struct verdict verdict_of(const uint8_t *record);

/* Holds the checker and both calls to this record and this normal form. */
void try_by_hand(const char *name, const uint8_t *job, size_t length, const uint8_t *record,
                 size_t record_length, const uint8_t *normal, size_t normal_length);

/* All jobs at the limits of the rules. */
void test_limits(void);

#endif
