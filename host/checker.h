/*
 * The independent checker: a second reader, a second writer and a second way to
 * the answer, written from the rules alone and from nothing of the library.
 * Small jobs are answered by trying every chain; larger ones by elimination on
 * rows, which the tests hold against trying every chain.
 */
#ifndef CHECKER_H
#define CHECKER_H

#include <stdbool.h>
#include <stddef.h>
#include <stdint.h>

#include "mvozelanke.h"

enum {
    LIST_MOST = 512,    /* simplices in a list */
    VERTEX_MOST = 256,  /* vertices of a complex */
    EDITS_MOST = 64,    /* edit records in a job */
    TRY_ALL_MOST = 14   /* simplices whose every subset is tried */
};

/* Refusal 0 says that nothing was refused. */
struct verdict {
    unsigned refusal;
    uint32_t place;
};

/*
 * One list.  A simplex keeps the number that it has in the file: its name.
 * Edits change only which name stands at which rank.
 */
struct list {
    unsigned count;
    uint8_t vertex[LIST_MOST][4];
    uint32_t key[LIST_MOST]; /* the same vertices as one number */
    uint16_t name_at[LIST_MOST];
};

/* A job as read.  list[k] holds the simplices of dimension k, vertices too. */
struct job {
    unsigned question;
    unsigned d;
    unsigned v;
    struct list list[4];
    bool in_chain[LIST_MOST]; /* by name */
};

enum method { TRY_ALL_CHAINS, ELIMINATE };

/* Reads a job; refuses with 1 to 11. */
struct verdict checker_read(const uint8_t *bytes, size_t length, struct job *job);

/* The dimension of the chain A. */
unsigned checker_chain_dimension(const struct job *job);

/* How many simplices a try of all chains has to choose from. */
unsigned checker_choices(const struct job *job);

/* Writes the normal form, at most MVZ_NORMAL_MOST bytes; its length. */
size_t checker_normal_form(const struct job *job, uint8_t *out);

/* Writes the answer record of a job that was read; its length. */
size_t checker_solve(const struct job *job, enum method method, uint8_t *out);

/* Writes a refusal record; its length. */
size_t checker_refusal_record(struct verdict verdict, uint8_t *out);

/* Reads and solves, trying all chains where there are few enough to choose from. */
size_t checker_answer(const uint8_t *bytes, size_t length, uint8_t *out);

#endif
