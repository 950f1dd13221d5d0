/*
 * Mvozelanke: the smallest patch, and the smallest chain of a class, over Z/2.
 *
 * A job is a run of records: an ordered simplicial complex (edges, triangles,
 * tetrahedra), a question and a chain A.  mvz_answer reads a job and answers it;
 * mvz_write reads a job and writes it back in its one normal form.
 *
 * All numbers in jobs and answers are little-endian.  The buffers lent to one
 * call must not overlap; they need no alignment.  A null pointer is fine where the
 * length is 0.  Neither call keeps a pointer, allocates memory or changes a byte of
 * the job.  Nothing is kept from one call to the next, so several threads may call
 * at once, each with its own out and work.  A thread that calls wants 128 KB of
 * stack free (measured on x86-64: mvz_answer takes 95,864 bytes, mvz_write
 * 97,352; docs/PERFORMANCE.md).
 *
 * The library, libmvozelanke.a, is for x86-64 Linux; of the C library it uses
 * memcpy and memset alone.  examples/panel.c shows the calls.
 */
#ifndef MVOZELANKE_H
#define MVOZELANKE_H

#include <stddef.h>
#include <stdint.h>

#ifdef __cplusplus
extern "C" {
#endif

/* The question byte of the head record. */
enum mvz_question {
    MVZ_FILL = 1,  /* the smallest d-chain whose boundary is A, d from 1 to 3 */
    MVZ_CLASS = 2  /* the smallest d-chain that differs from A by a boundary, d from 0 to 2 */
};

/*
 * Kinds of records.  A record is the length of its payload in four bytes, its kind
 * in two, and the payload.  A job has kinds 1 to 4 once each and in this order,
 * then one of 5 and 6, then up to 64 of kind 7.  An answer is one of 16 and 17.
 *
 *   kind  payload                                       allowed length
 *     1   question and d, one byte each; v, the number  4
 *         of vertices (0 to 256), two bytes
 *     2   edges, two vertices each                      multiple of 2, at most 1024
 *     3   triangles, three vertices each                multiple of 3, at most 1536
 *     4   tetrahedra, four vertices each                multiple of 4, at most 2048
 *     5   A by positions, two bytes each, rising        even, at most 1024
 *     6   A as a closed walk over vertices              at most 1024
 *     7   an edit: list kind (2, 3 or 4), seen and new  8, 9 or 10, by the list kind
 *         position, two bytes each; then the vertices
 *    16   d, one byte; then d + 1 vertices for each member, in rising rank
 *    17   refusal number, two bytes; place, four bytes
 *
 * A vertex is one byte, and the vertices of a simplex rise.  A simplex's position
 * in its list, counted from 0, is its rank; a vertex's is its number.  A has
 * dimension d - 1 for fill and d for class; kind 6 is for dimension 1.  A walk goes
 * back to its first vertex and stands for the set of edges that its steps use.
 *
 * Edits are done in turn.  Each takes a simplex from its seen position to the new
 * one, and those between shift by one place.  They move ranks, not A: its positions
 * are those of the lists as the job has them, before the edits.
 */
enum mvz_kind {
    MVZ_KIND_HEAD = 1,
    MVZ_KIND_EDGES = 2,
    MVZ_KIND_TRIANGLES = 3,
    MVZ_KIND_TETRAHEDRA = 4,
    MVZ_KIND_CHAIN = 5,
    MVZ_KIND_WALK = 6,
    MVZ_KIND_EDIT = 7,
    MVZ_KIND_ANSWER = 16,
    MVZ_KIND_REFUSAL = 17
};

/*
 * Refusal numbers.  0 stands for "not refused" and is never in a record.  A place is
 * a byte of the job, counted from 0; docs/REFUSALS.md says what to do about each.
 */
enum mvz_refusal_number {
    MVZ_NOT_REFUSED = 0,
    MVZ_TOO_LONG = 1,    /* the job has more than MVZ_JOB_MOST bytes */
    MVZ_CUT = 2,         /* a record runs past the end of the job */
    MVZ_BAD_KIND = 3,    /* this kind may not stand here, or the chain is missing */
    MVZ_BAD_SHAPE = 4,   /* the record's length, or an edit's list kind, is not allowed */
    MVZ_BAD_HEAD = 5,    /* question, d or v is outside its range */
    MVZ_BAD_VERTEX = 6,  /* a simplex does not rise, or names a vertex not below v */
    MVZ_TWICE = 7,       /* a simplex stands in its list already */
    MVZ_NO_FACE = 8,     /* a facet of a simplex is not listed */
    MVZ_CHAIN_ITEM = 9,  /* a bad position in the chain, or a walk step over no edge */
    MVZ_STALE = 10,      /* an edit names a simplex that is not at its seen position */
    MVZ_BAD_TARGET = 11, /* an edit's new position is not below the count */
    MVZ_RIM_OPEN = 12,   /* fill: the boundary of A is not empty */
    MVZ_NO_FILLING = 13, /* fill: A is closed, but nothing has A as its boundary */
    MVZ_NO_ROOM = 14     /* too little memory is lent */
};

/* Sizes in bytes. */
#define MVZ_OUT_ROOM 2055    /* mvz_answer wants at least this much output */
#define MVZ_WORK_ROOM 65536  /* and at least this much work memory */
#define MVZ_JOB_MOST 6690    /* a longer job is refused */
#define MVZ_NORMAL_MOST 5666 /* no normal form is longer than this */
#define MVZ_RECORD_HEADER 6  /* four bytes of length, two bytes of kind */
#define MVZ_REFUSAL_RECORD 12

/*
 * Answers a job.
 *
 * result   the number of bytes written to out: one record, either a chain
 *          (kind 16) or a refusal from 1 to 13 (kind 17).  0 when less than
 *          MVZ_OUT_ROOM output or less than MVZ_WORK_ROOM work memory is lent;
 *          that is the refusal 14, and it writes nothing anywhere.
 * out      the first `result` bytes are the record, the rest keep their values.
 * work     may hold anything before the call.  After it all work_len bytes are
 *          zero, unless the result is 0: then they keep their values.
 */
size_t mvz_answer(const uint8_t *job, size_t job_len,
                  uint8_t *out, size_t out_len,
                  uint8_t *work, size_t work_len);

/*
 * Writes a job in its normal form: kinds 1 to 5 only, the lists as they stand
 * after the edits, A as positions in them.  Two jobs are the same exactly when
 * their normal forms are.
 *
 * result   take it apart with the functions below.  Written: refusal 0 and the
 *          length.  Refused: one of 1 to 11 and its place, or, for a sound job,
 *          14 and place 0 when out_len is less than the normal form's length.
 * out      written: the first `length` bytes are the job, the rest keep their
 *          values.  Refused: every byte keeps its value.
 */
uint64_t mvz_write(const uint8_t *job, size_t job_len,
                   uint8_t *out, size_t out_len);

/* The refusal number in a result of mvz_write; MVZ_NOT_REFUSED where it wrote. */
static inline uint32_t mvz_refusal(uint64_t result)
{
    return (uint32_t)(result >> 32);
}

/* The length written.  It means something only where nothing was refused. */
static inline uint32_t mvz_length(uint64_t result)
{
    return (uint32_t)(result & UINT32_C(0xffffffff));
}

/* The place of a refusal.  It means something only where something was refused. */
static inline uint32_t mvz_place(uint64_t result)
{
    return (uint32_t)(result & UINT32_C(0xffffffff));
}

#ifdef __cplusplus
}
#endif

#endif
