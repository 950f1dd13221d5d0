/* PHAT's reduction of a boundary matrix, behind plain C calls. */
#ifndef BENCH_PHAT_H
#define BENCH_PHAT_H

#include "bench_shapes.h"

#ifdef __cplusplus
extern "C" {
#endif

enum phat_way { PHAT_STANDARD, PHAT_TWIST };

/*
 * PHAT_ASKED has what the library reduces: the triangles' boundaries, in rows of
 * edges.  PHAT_WHOLE has the edges' boundaries too, in rows of vertices: the matrix
 * of the whole complex, with all cells as columns.
 */
enum phat_columns { PHAT_ASKED, PHAT_WHOLE };

/* A boundary matrix of a shape, with the rim as its last column. */
struct phat_matrix;

struct phat_matrix *phat_make(const struct shape *shape, enum phat_columns columns);
void phat_reduce(struct phat_matrix *matrix, enum phat_way way);

/* Once reduced: whether nothing is left of the rim, so it has a filling.  PHAT keeps none. */
bool phat_bounds(const struct phat_matrix *matrix);

void phat_free(struct phat_matrix *matrix);

#ifdef __cplusplus
}
#endif

#endif
