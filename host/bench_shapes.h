/* Surfaces to measure on: their triangles, and a rim to fill. */
#ifndef BENCH_SHAPES_H
#define BENCH_SHAPES_H

#include <stdbool.h>
#include <stdint.h>

#include "draft.h"
#include "random_jobs.h"

enum { SHAPE_MOST = 512 };

struct shape {
    unsigned vertices;
    unsigned edges;
    unsigned triangles;
    uint8_t edge[SHAPE_MOST][2];
    uint8_t triangle[SHAPE_MOST][3];
    uint16_t side[SHAPE_MOST][3]; /* the edges of each triangle */
    bool in_rim[SHAPE_MOST];      /* by edge */
};

/* Triangles drawn at random among so few vertices that their edges fit. */
void shape_random(struct shape *shape, unsigned triangles, struct dice *dice);

/* A grid of wide times high squares, two triangles each, row by row; all of its rim. */
void shape_disc(struct shape *shape, unsigned wide, unsigned high);

/* Two poles and rings between them; the rim is the middle ring. */
void shape_sphere(struct shape *shape, unsigned round, unsigned rings);

/*
 * A path and its longest chords, joined to two poles.  The path's triangles stand
 * first, and each chord's triangle is cleared along the whole path.  `falling`
 * turns the order of the edges round, for a reduction that starts at the other end.
 */
void shape_hostile(struct shape *shape, unsigned triangles, bool falling);

/*
 * Triangles of the complete complex on so many vertices, those first whose number
 * falls into the fullest buckets of the library's look-up.
 */
void shape_colliding(struct shape *shape, unsigned vertices, unsigned triangles);

/* The same triangles in a random order. */
void shape_shuffle(struct shape *shape, struct dice *dice);

/* The fill job of the shape. */
void shape_job(const struct shape *shape, struct draft_job *draft);

#endif
