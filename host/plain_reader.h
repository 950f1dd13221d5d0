/*
 * A plain C reader of jobs that finds simplices by hash and goes through no list:
 * what reading costs where nothing has to be proved.  It is written from the rules
 * alone.  Only the bench uses it, and holds it to the checker's reader.
 */
#ifndef PLAIN_READER_H
#define PLAIN_READER_H

#include <stdbool.h>
#include <stddef.h>
#include <stdint.h>

#include "checker.h"

/* Twice as many as a list has simplices, so that a search soon meets a free slot. */
enum { PLAIN_SLOTS = 1024 };

/* A simplex goes by its place in the file; edits change only which one has which rank. */
struct plain_list {
    unsigned count;
    uint32_t key[LIST_MOST];     /* its vertices as one number, a byte each */
    uint16_t at_rank[LIST_MOST]; /* the place of the simplex of this rank */
    uint16_t slot[PLAIN_SLOTS];  /* by hash: a place plus 1, or 0 where the slot is free */
};

struct plain_job {
    unsigned question;
    unsigned d;
    unsigned v;
    struct plain_list list[3]; /* edges, triangles, tetrahedra */
    bool in_chain[LIST_MOST];  /* by place in the file */
};

/* Reads a job; refuses with 1 to 11. */
struct verdict plain_read(const uint8_t *bytes, size_t length, struct plain_job *job);

#endif
