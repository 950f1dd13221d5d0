/*
 * Jobs at the limits: full lists, full chains, the longest walk, the longest job.
 * They are too long to write by hand; what they ask is simple, so that their
 * answers are known by hand all the same.
 */
#ifndef LIMIT_JOBS_H
#define LIMIT_JOBS_H

#include "draft.h"

/* The first `count` edges 01 02 .. 0-255 12 13 .. : vertex 0 is joined to all. */
void draft_star_edges(struct draft_job *draft, unsigned count);

/* The first `count` choices of k among `corners` vertices, in dictionary order. */
void draft_choices(struct draft_job *draft, unsigned corners, unsigned k, unsigned count);

/* Full lists: 512 edges, triangles and tetrahedra, on 16 vertices and some edges beside. */
void draft_full_lists(struct draft_job *draft);

/* Full lists and a full chain. */
void draft_full(struct draft_job *draft, unsigned question, unsigned d);

/*
 * The same with each list in the opposite order: the facets that are asked for most
 * stand last in their lists, the worst for a reader that goes through them.
 */
void draft_full_turned_round(struct draft_job *draft, unsigned question, unsigned d);

/* The longest job: full lists, a full chain and 64 edits of tetrahedra; 6,690 bytes. */
void draft_longest(struct draft_job *draft, unsigned question, unsigned d);

/* As long, with a walk of 1,024 steps for the chain. */
void draft_longest_with_walk(struct draft_job *draft);

#endif
