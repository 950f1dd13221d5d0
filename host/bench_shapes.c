#include "bench_shapes.h"

#include <stdio.h>
#include <stdlib.h>
#include <string.h>

#include "mvozelanke.h"

static void start(struct shape *shape, unsigned vertices)
{
    memset(shape, 0, sizeof *shape);
    shape->vertices = vertices;
}

static unsigned edge_number(struct shape *shape, unsigned a, unsigned b)
{
    for (unsigned i = 0; i < shape->edges; i++)
        if (shape->edge[i][0] == a && shape->edge[i][1] == b)
            return i;
    if (shape->edges == SHAPE_MOST) {
        fprintf(stderr, "a shape has more than %d edges\n", SHAPE_MOST);
        exit(2);
    }
    shape->edge[shape->edges][0] = (uint8_t)a;
    shape->edge[shape->edges][1] = (uint8_t)b;
    return shape->edges++;
}

static void swap_down(unsigned *a, unsigned *b)
{
    if (*b < *a) {
        unsigned held = *a;
        *a = *b;
        *b = held;
    }
}

static void add_triangle(struct shape *shape, unsigned a, unsigned b, unsigned c)
{
    unsigned t = shape->triangles++;
    swap_down(&a, &b);
    swap_down(&b, &c);
    swap_down(&a, &b);
    shape->triangle[t][0] = (uint8_t)a;
    shape->triangle[t][1] = (uint8_t)b;
    shape->triangle[t][2] = (uint8_t)c;
    shape->side[t][0] = (uint16_t)edge_number(shape, a, b);
    shape->side[t][1] = (uint16_t)edge_number(shape, a, c);
    shape->side[t][2] = (uint16_t)edge_number(shape, b, c);
}

static void add_to_rim(struct shape *shape, unsigned triangle)
{
    for (unsigned i = 0; i < 3; i++)
        shape->in_rim[shape->side[triangle][i]] ^= true;
}

/* ---- random ---- */

static bool has_triangle(const struct shape *shape, unsigned a, unsigned b, unsigned c)
{
    for (unsigned i = 0; i < shape->triangles; i++)
        if (shape->triangle[i][0] == a && shape->triangle[i][1] == b && shape->triangle[i][2] == c)
            return true;
    return false;
}

void shape_random(struct shape *shape, unsigned triangles, struct dice *dice)
{
    unsigned vertices = 3;
    while ((vertices + 1) * vertices / 2 <= triangles)
        vertices++; /* about as many edges as triangles */
    start(shape, vertices);
    while (shape->triangles < triangles) {
        unsigned a = dice_below(dice, vertices);
        unsigned b = dice_below(dice, vertices);
        unsigned c = dice_below(dice, vertices);
        if (a < b && b < c && !has_triangle(shape, a, b, c))
            add_triangle(shape, a, b, c);
    }
    for (unsigned t = 0; t < triangles; t++)
        if (dice_chance(dice, 50))
            add_to_rim(shape, t);
}

/* ---- disc and sphere ---- */

void shape_disc(struct shape *shape, unsigned wide, unsigned high)
{
    start(shape, (wide + 1) * (high + 1));
    for (unsigned y = 0; y < high; y++)
        for (unsigned x = 0; x < wide; x++) {
            unsigned corner = y * (wide + 1) + x;
            unsigned below = corner + wide + 1;
            add_triangle(shape, corner, corner + 1, below + 1);
            add_triangle(shape, corner, below, below + 1);
        }
    for (unsigned t = 0; t < shape->triangles; t++)
        add_to_rim(shape, t);
}

void shape_sphere(struct shape *shape, unsigned round, unsigned rings)
{
    unsigned north = round * rings, south = north + 1;
    start(shape, south + 1);
    for (unsigned i = 0; i < round; i++) {
        unsigned j = (i + 1) % round;
        unsigned last = (rings - 1) * round;
        add_triangle(shape, north, i, j);
        for (unsigned ring = 0; ring + 1 < rings; ring++) {
            unsigned here = ring * round, below = here + round;
            add_triangle(shape, here + i, here + j, below + j);
            add_triangle(shape, here + i, below + i, below + j);
        }
        add_triangle(shape, south, last + i, last + j);
    }
    unsigned middle = rings / 2 * round;
    for (unsigned i = 0; i < round; i++) {
        unsigned a = middle + i, b = middle + (i + 1) % round;
        swap_down(&a, &b);
        shape->in_rim[edge_number(shape, a, b)] = true;
    }
}

/* ---- hostile ---- */

/* How an edge ranks: the path and its chords below, then each pole's edges in turn. */
static unsigned weight(const struct shape *shape, unsigned edge, unsigned path)
{
    unsigned a = shape->edge[edge][0], b = shape->edge[edge][1];
    return b < path ? a * 256 + b : 65536 + b * 256 + a;
}

static void sort_edges(struct shape *shape, unsigned path, bool falling)
{
    for (unsigned i = 1; i < shape->edges; i++)
        for (unsigned j = i; j > 0; j--) {
            bool wrong = weight(shape, j, path) < weight(shape, j - 1, path);
            if (wrong == falling)
                break;
            uint8_t held[2];
            memcpy(held, shape->edge[j], 2);
            memcpy(shape->edge[j], shape->edge[j - 1], 2);
            memcpy(shape->edge[j - 1], held, 2);
        }
}

/* After the edges have moved. */
static void find_sides(struct shape *shape)
{
    for (unsigned t = 0; t < shape->triangles; t++) {
        const uint8_t *v = shape->triangle[t];
        shape->side[t][0] = (uint16_t)edge_number(shape, v[0], v[1]);
        shape->side[t][1] = (uint16_t)edge_number(shape, v[0], v[2]);
        shape->side[t][2] = (uint16_t)edge_number(shape, v[1], v[2]);
    }
}

void shape_hostile(struct shape *shape, unsigned triangles, bool falling)
{
    unsigned path = triangles / 4 - 1;
    start(shape, path + 2);
    for (unsigned pole = path; pole < path + 2; pole++)
        for (unsigned i = 0; i + 1 < path; i++)
            add_triangle(shape, i, i + 1, pole);
    for (unsigned span = path - 1; shape->triangles < triangles; span--)
        for (unsigned i = 0; i + span < path && shape->triangles < triangles; i++)
            for (unsigned pole = path; pole < path + 2; pole++)
                add_triangle(shape, i, i + span, pole);
    sort_edges(shape, path, falling);
    find_sides(shape);
    for (unsigned t = 0; t < triangles; t += 2)
        add_to_rim(shape, t);
}

/* ---- colliding ---- */

enum { BUCKETS = 1021 }; /* as crate keys has it: what matters is only that they are hit */

static unsigned bucket(unsigned a, unsigned b, unsigned c)
{
    return (unsigned)((a + ((uint64_t)b << 16) + ((uint64_t)c << 32)) % BUCKETS);
}

static void count_buckets(unsigned vertices, unsigned held[BUCKETS])
{
    memset(held, 0, BUCKETS * sizeof held[0]);
    for (unsigned a = 0; a < vertices; a++)
        for (unsigned b = a + 1; b < vertices; b++)
            for (unsigned c = b + 1; c < vertices; c++)
                held[bucket(a, b, c)]++;
}

static void add_triangles_of(struct shape *shape, const unsigned held[BUCKETS], unsigned many,
                             unsigned triangles)
{
    for (unsigned a = 0; a < shape->vertices; a++)
        for (unsigned b = a + 1; b < shape->vertices; b++)
            for (unsigned c = b + 1; c < shape->vertices && shape->triangles < triangles; c++)
                if (held[bucket(a, b, c)] == many)
                    add_triangle(shape, a, b, c);
}

void shape_colliding(struct shape *shape, unsigned vertices, unsigned triangles)
{
    static unsigned held[BUCKETS];
    start(shape, vertices);
    count_buckets(vertices, held);
    for (unsigned many = SHAPE_MOST; many > 0 && shape->triangles < triangles; many--)
        add_triangles_of(shape, held, many, triangles);
    for (unsigned t = 0; t < shape->triangles; t += 2)
        add_to_rim(shape, t);
}

/* ---- all shapes ---- */

void shape_shuffle(struct shape *shape, struct dice *dice)
{
    for (unsigned i = shape->triangles; i > 1; i--) {
        unsigned j = dice_below(dice, i);
        uint8_t held[3];
        memcpy(held, shape->triangle[i - 1], 3);
        memcpy(shape->triangle[i - 1], shape->triangle[j], 3);
        memcpy(shape->triangle[j], held, 3);
    }
    find_sides(shape);
}

void shape_job(const struct shape *shape, struct draft_job *draft)
{
    unsigned position[SHAPE_MOST];
    unsigned count = 0;
    for (unsigned i = 0; i < shape->edges; i++)
        if (shape->in_rim[i])
            position[count++] = i;
    draft_start(draft);
    draft_head(draft, MVZ_FILL, 2, shape->vertices);
    draft_record(draft, MVZ_KIND_EDGES, &shape->edge[0][0], 2 * (size_t)shape->edges);
    draft_record(draft, MVZ_KIND_TRIANGLES, &shape->triangle[0][0], 3 * (size_t)shape->triangles);
    draft_record(draft, MVZ_KIND_TETRAHEDRA, NULL, 0);
    draft_positions(draft, position, count);
}
