#include "bench_phat.h"

#include <algorithm>
#include <chrono>
#include <vector>

#include <phat/algorithms/standard_reduction.h>
#include <phat/algorithms/twist_reduction.h>
#include <phat/boundary_matrix.h>
#include <phat/representations/default_representations.h>

namespace {

using Matrix = phat::boundary_matrix<phat::bit_tree_pivot_column>;

/* The columns of a simplex's facets, in rising order. */
template <typename Facets>
phat::column column_of(const Facets &facets, phat::index first_row)
{
    phat::column column;
    for (phat::index facet : facets)
        column.push_back(first_row + facet);
    std::sort(column.begin(), column.end());
    return column;
}

/*
 * First the vertices, then the edges, the triangles and the rim.  A column stands for
 * a row too, so what has no boundary here still has its empty column.
 */
Matrix matrix_of(const shape *shape, phat_matrix which)
{
    Matrix matrix;
    const phat::index edges = which == PHAT_WHOLE ? shape->vertices : 0;
    const phat::index triangles = edges + shape->edges;
    const phat::index rim = triangles + shape->triangles;
    matrix.set_num_cols(rim + 1);
    for (phat::index i = 0; i < edges; i++) {
        matrix.set_dim(i, 0);
        matrix.set_col(i, phat::column());
    }
    for (phat::index i = 0; i < shape->edges; i++) {
        matrix.set_dim(edges + i, 1);
        matrix.set_col(edges + i,
                       which == PHAT_WHOLE ? column_of(shape->edge[i], 0) : phat::column());
    }
    for (phat::index i = 0; i < shape->triangles; i++) {
        matrix.set_dim(triangles + i, 2);
        matrix.set_col(triangles + i, column_of(shape->side[i], edges));
    }
    phat::column in_rim;
    for (phat::index i = 0; i < shape->edges; i++)
        if (shape->in_rim[i])
            in_rim.push_back(edges + i);
    matrix.set_dim(rim, 2);
    matrix.set_col(rim, in_rim);
    return matrix;
}

template <typename Reduction>
double seconds_of(Matrix &matrix)
{
    Reduction reduction;
    const auto begin = std::chrono::steady_clock::now();
    reduction(matrix);
    const auto end = std::chrono::steady_clock::now();
    return std::chrono::duration<double>(end - begin).count();
}

}  // namespace

double phat_reduce(const struct shape *shape, enum phat_matrix which, enum phat_way way,
                   bool *bounds)
{
    Matrix matrix = matrix_of(shape, which);
    const double seconds = way == PHAT_STANDARD ? seconds_of<phat::standard_reduction>(matrix)
                                                : seconds_of<phat::twist_reduction>(matrix);
    *bounds = matrix.is_empty(matrix.get_num_cols() - 1);
    return seconds;
}
