/*
 * Jobs with their answers, all bytes written by hand from the rules.  They are
 * held against the checker first and then against the library.
 */
#ifndef VECTORS_H
#define VECTORS_H

#include <stddef.h>

struct vector {
    const char *name;
    const char *job;    /* bytes in hex */
    const char *answer; /* bytes in hex */
    const char *normal; /* bytes in hex; null where the job is its own normal form,
                           or where reading it is refused */
};

extern const struct vector vectors[];
extern const size_t vector_count;

#endif
