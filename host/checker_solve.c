#include <string.h>

#include "checker.h"
#include "checker_parts.h"

/* ---- chains ---- */

enum { WORDS = LIST_MOST / 64 };

/* A set of simplices of one dimension, a bit to a rank. */
struct chain {
    uint64_t word[WORDS];
};

static bool has(const struct chain *chain, unsigned rank)
{
    return chain->word[rank / 64] >> (rank % 64) & 1;
}

static void flip(struct chain *chain, unsigned rank)
{
    chain->word[rank / 64] ^= (uint64_t)1 << (rank % 64);
}

static void add(struct chain *to, const struct chain *other)
{
    for (unsigned i = 0; i < WORDS; i++)
        to->word[i] ^= other->word[i];
}

static bool same(const struct chain *p, const struct chain *q)
{
    return memcmp(p, q, sizeof *p) == 0;
}

/* P is smaller when the highest-ranked simplex in which they differ is in Q. */
static bool smaller(const struct chain *p, const struct chain *q)
{
    for (unsigned i = WORDS; i-- > 0;)
        if (p->word[i] != q->word[i])
            return p->word[i] < q->word[i];
    return false;
}

static bool is_empty(const struct chain *chain)
{
    static const struct chain empty;
    return same(chain, &empty);
}

/* ---- boundaries ---- */

/* The boundaries of all simplices of one dimension, in rising rank. */
struct matrix {
    unsigned rows;    /* simplices below */
    unsigned columns; /* simplices */
    struct chain column[LIST_MOST];
};

static void ranks_by_name(const struct list *list, uint16_t *rank_of)
{
    for (unsigned rank = 0; rank < list->count; rank++)
        rank_of[list->name_at[rank]] = (uint16_t)rank;
}

/* The boundary of a vertex is empty, so dimension 0 has columns and no rows. */
static void boundaries(const struct job *job, unsigned dimension, struct matrix *matrix)
{
    const struct list *list = &job->list[dimension];
    matrix->rows = 0;
    matrix->columns = list->count;
    memset(matrix->column, 0, list->count * sizeof matrix->column[0]);
    if (dimension == 0)
        return;
    const struct list *below = &job->list[dimension - 1];
    uint16_t rank_of[LIST_MOST];
    ranks_by_name(below, rank_of);
    matrix->rows = below->count;
    for (unsigned rank = 0; rank < list->count; rank++)
        for (unsigned out = 0; out <= dimension; out++) {
            uint8_t face[4] = {0};
            facet(list->vertex[list->name_at[rank]], dimension + 1, out, face);
            flip(&matrix->column[rank], rank_of[name_of(below, face, dimension)]);
        }
}

/* The chain A, by the ranks after the edits. */
static struct chain chain_of(const struct job *job)
{
    const struct list *list = &job->list[checker_chain_dimension(job)];
    struct chain chain = {{0}};
    for (unsigned rank = 0; rank < list->count; rank++)
        if (job->in_chain[list->name_at[rank]])
            flip(&chain, rank);
    return chain;
}

static bool rim_is_open(const struct job *job, const struct chain *a, struct matrix *matrix)
{
    struct chain boundary = {{0}};
    boundaries(job, checker_chain_dimension(job), matrix);
    for (unsigned rank = 0; rank < matrix->columns; rank++)
        if (has(a, rank))
            add(&boundary, &matrix->column[rank]);
    return !is_empty(&boundary);
}

/* ---- the answer by trying all chains ---- */

/*
 * Visits all sets of columns, each set one column away from the one before it,
 * and hands back which column to flip to come from set t-1 to set t.
 */
static unsigned column_to_flip(uint32_t t)
{
    unsigned column = 0;
    while (!(t >> column & 1))
        column++;
    return column;
}

static bool fill_by_trying(const struct matrix *matrix, const struct chain *a,
                           struct chain *best)
{
    struct chain tried = {{0}}, boundary = {{0}};
    bool found = same(&boundary, a);
    *best = tried;
    for (uint32_t t = 1; t < (uint32_t)1 << matrix->columns; t++) {
        unsigned column = column_to_flip(t);
        flip(&tried, column);
        add(&boundary, &matrix->column[column]);
        if (same(&boundary, a) && (!found || smaller(&tried, best))) {
            found = true;
            *best = tried;
        }
    }
    return found;
}

static void class_by_trying(const struct matrix *matrix, const struct chain *a,
                            struct chain *best)
{
    struct chain tried = *a;
    *best = tried;
    for (uint32_t t = 1; t < (uint32_t)1 << matrix->columns; t++) {
        add(&tried, &matrix->column[column_to_flip(t)]);
        if (smaller(&tried, best))
            *best = tried;
    }
}

/* ---- the answer by elimination on rows ---- */

/* One equation: these simplices of the filling sum to this bit of A. */
struct equation {
    struct chain of;
    bool sum;
};

static void equations(const struct matrix *matrix, const struct chain *a,
                      struct equation *equation)
{
    memset(equation, 0, matrix->rows * sizeof *equation);
    for (unsigned row = 0; row < matrix->rows; row++) {
        equation[row].sum = has(a, row);
        for (unsigned column = 0; column < matrix->columns; column++)
            if (has(&matrix->column[column], row))
                flip(&equation[row].of, column);
    }
}

/* Brings an equation with this column to place `to`; false where there is none. */
static bool bring_up(struct equation *equation, unsigned rows, unsigned to, unsigned column)
{
    for (unsigned row = to; row < rows; row++)
        if (has(&equation[row].of, column)) {
            struct equation found = equation[row];
            equation[row] = equation[to];
            equation[to] = found;
            return true;
        }
    return false;
}

static void clear_elsewhere(struct equation *equation, unsigned rows, unsigned used, unsigned column)
{
    for (unsigned row = 0; row < rows; row++)
        if (row != used && has(&equation[row].of, column)) {
            add(&equation[row].of, &equation[used].of);
            equation[row].sum ^= equation[used].sum;
        }
}

/*
 * Columns are taken from the lowest rank up, so a column is left free only where
 * it is a sum of lower ones.  The highest member of every cycle is then a free
 * column, and the filling without free columns is the smallest.
 */
static bool fill_by_elimination(const struct matrix *matrix, const struct chain *a,
                                struct chain *best)
{
    struct equation equation[LIST_MOST];
    unsigned leader[LIST_MOST];
    unsigned used = 0;
    equations(matrix, a, equation);
    for (unsigned column = 0; column < matrix->columns && used < matrix->rows; column++)
        if (bring_up(equation, matrix->rows, used, column)) {
            clear_elsewhere(equation, matrix->rows, used, column);
            leader[used++] = column;
        }
    memset(best, 0, sizeof *best);
    for (unsigned row = 0; row < used; row++)
        if (equation[row].sum)
            flip(best, leader[row]);
    for (unsigned row = used; row < matrix->rows; row++)
        if (equation[row].sum)
            return false;
    return true;
}

/*
 * From the highest rank down: one boundary that has this simplex on top clears
 * it from all others and from the chain.  What then stays in the chain is on top
 * of no boundary, so no boundary can make the chain smaller.
 */
static void class_by_elimination(const struct matrix *matrix, const struct chain *a,
                                 struct chain *best)
{
    struct chain boundary[LIST_MOST];
    unsigned left = matrix->columns;
    memcpy(boundary, matrix->column, left * sizeof boundary[0]);
    *best = *a;
    for (unsigned rank = matrix->rows; rank-- > 0 && left > 0;) {
        unsigned found = 0;
        while (found < left && !has(&boundary[found], rank))
            found++;
        if (found == left)
            continue;
        struct chain top = boundary[found];
        boundary[found] = boundary[--left];
        for (unsigned i = 0; i < left; i++)
            if (has(&boundary[i], rank))
                add(&boundary[i], &top);
        if (has(best, rank))
            add(best, &top);
    }
}

/* ---- the answer record ---- */

static size_t put_answer(const struct job *job, const struct chain *answer, uint8_t *out)
{
    const struct list *list = &job->list[job->d];
    uint8_t *p = out + MVZ_RECORD_HEADER;
    *p++ = (uint8_t)job->d;
    for (unsigned rank = 0; rank < list->count; rank++)
        if (has(answer, rank)) {
            memcpy(p, list->vertex[list->name_at[rank]], job->d + 1);
            p += job->d + 1;
        }
    put_header(out, (size_t)(p - out) - MVZ_RECORD_HEADER, MVZ_KIND_ANSWER);
    return (size_t)(p - out);
}

unsigned checker_choices(const struct job *job)
{
    return job->list[checker_chain_dimension(job) + 1].count;
}

static struct verdict outcome(unsigned number)
{
    struct verdict verdict = {number, 0};
    return verdict;
}

static struct verdict solve(const struct job *job, enum method method, struct chain *answer)
{
    struct matrix matrix;
    struct chain a = chain_of(job);
    if (job->question == MVZ_FILL && rim_is_open(job, &a, &matrix))
        return outcome(MVZ_RIM_OPEN);
    boundaries(job, checker_chain_dimension(job) + 1, &matrix);
    if (job->question == MVZ_CLASS) {
        (method == TRY_ALL_CHAINS ? class_by_trying : class_by_elimination)(&matrix, &a, answer);
        return outcome(MVZ_NOT_REFUSED);
    }
    bool found =
        (method == TRY_ALL_CHAINS ? fill_by_trying : fill_by_elimination)(&matrix, &a, answer);
    return outcome(found ? MVZ_NOT_REFUSED : MVZ_NO_FILLING);
}

size_t checker_solve(const struct job *job, enum method method, uint8_t *out)
{
    struct chain answer;
    struct verdict verdict = solve(job, method, &answer);
    return verdict.refusal != 0 ? checker_refusal_record(verdict, out)
                                : put_answer(job, &answer, out);
}
