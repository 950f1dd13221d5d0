/* PHAT's reduction of a boundary matrix, behind a plain C call. */
#ifndef BENCH_PHAT_H
#define BENCH_PHAT_H

#include "bench_shapes.h"

#ifdef __cplusplus
extern "C" {
#endif

enum phat_way { PHAT_STANDARD, PHAT_TWIST };

/*
 * PHAT_ASKED has what the library reduces: the triangles' boundaries, in rows of
 * edges.  PHAT_WHOLE has the edges' boundaries too, in rows of vertices: the matrix
 * of the whole complex, with all cells as columns.
 */
enum phat_matrix { PHAT_ASKED, PHAT_WHOLE };

/*
 * Reduces a boundary matrix of the shape with the rim as its last column, and hands
 * back the seconds of the reduction alone.  `bounds` says whether the rim was reduced
 * to nothing, so whether it has a filling; PHAT keeps no filling.
 */
double phat_reduce(const struct shape *shape, enum phat_matrix which, enum phat_way way,
                   bool *bounds);

#ifdef __cplusplus
}
#endif

#endif
