#include "limit_jobs.h"

#include <string.h>

#include "mvozelanke.h"

/* ---- lists ---- */

static size_t put_choices(uint8_t *out, unsigned corners, unsigned k, unsigned count)
{
    unsigned pick[4] = {0, 1, 2, 3};
    for (unsigned done = 0; done < count; done++) {
        for (unsigned i = 0; i < k; i++)
            *out++ = (uint8_t)pick[i];
        unsigned i = k - 1;
        while (i > 0 && pick[i] == corners - k + i)
            i--;
        pick[i]++;
        for (i++; i < k; i++)
            pick[i] = pick[i - 1] + 1;
    }
    return (size_t)count * k;
}

void draft_choices(struct draft_job *draft, unsigned corners, unsigned k, unsigned count)
{
    uint8_t payload[4096];
    size_t length = put_choices(payload, corners, k, count);
    draft_record(draft, k, payload, length);
}

void draft_star_edges(struct draft_job *draft, unsigned count)
{
    draft_choices(draft, 256, 2, count);
}

/* All 120 edges on vertices 0 to 15; 16 joined to 17 up to 255; 17 to 18 and so on. */
static void draft_full_edges(struct draft_job *draft)
{
    uint8_t payload[1024];
    size_t at = put_choices(payload, 16, 2, 120);
    for (unsigned a = 16; at < sizeof payload; a++)
        for (unsigned b = a + 1; b < 256 && at < sizeof payload; b++) {
            payload[at++] = (uint8_t)a;
            payload[at++] = (uint8_t)b;
        }
    draft_record(draft, MVZ_KIND_EDGES, payload, sizeof payload);
}

/* All 455 triangles on vertices 0 to 14, and 57 that join an edge among them to 15. */
static void draft_full_triangles(struct draft_job *draft)
{
    uint8_t payload[1536];
    uint8_t edge[2 * 57];
    size_t at = put_choices(payload, 15, 3, 455);
    put_choices(edge, 15, 2, 57);
    for (unsigned i = 0; i < 57; i++) {
        payload[at++] = edge[2 * i];
        payload[at++] = edge[2 * i + 1];
        payload[at++] = 15;
    }
    draft_record(draft, MVZ_KIND_TRIANGLES, payload, at);
}

void draft_full_lists(struct draft_job *draft)
{
    draft_full_edges(draft);
    draft_full_triangles(draft);
    draft_choices(draft, 15, 4, 512);
}

/* 0123 to the end and back again, 32 times. */
static void draft_most_edits(struct draft_job *draft)
{
    for (unsigned i = 0; i < 32; i++)
        draft_hex(draft, "0a 00 00 00 07 00 04 00 00 00 ff 01 00 01 02 03 "
                         "0a 00 00 00 07 00 04 00 ff 01 00 00 00 01 02 03");
}

void draft_full(struct draft_job *draft, unsigned question, unsigned d)
{
    draft_start(draft);
    draft_head(draft, question, d, 256);
    draft_full_lists(draft);
    draft_first_positions(draft, 512);
}

/* The 512 simplices of k vertices in the opposite order. */
static void turn_list_round(uint8_t *list, unsigned k)
{
    uint8_t turned[2048];
    for (unsigned i = 0; i < 512; i++)
        memcpy(turned + i * k, list + (511 - i) * k, k);
    memcpy(list, turned, 512 * (size_t)k);
}

void draft_full_turned_round(struct draft_job *draft, unsigned question, unsigned d)
{
    draft_full(draft, question, d);
    uint8_t *list = draft->bytes + MVZ_RECORD_HEADER + 4; /* past the head */
    for (unsigned k = 2; k <= 4; k++) {
        list += MVZ_RECORD_HEADER;
        turn_list_round(list, k);
        list += 512 * (size_t)k;
    }
}

void draft_longest(struct draft_job *draft, unsigned question, unsigned d)
{
    draft_full(draft, question, d);
    draft_most_edits(draft);
}

/* From 16 to 17 and back, to 18 and back, and so on, over all of its 239 edges. */
static void draft_longest_walk(struct draft_job *draft)
{
    uint8_t vertex[1024];
    for (unsigned i = 0; i < sizeof vertex; i += 2) {
        vertex[i] = 16;
        vertex[i + 1] = (uint8_t)(17 + i / 2 % 239);
    }
    draft_record(draft, MVZ_KIND_WALK, vertex, sizeof vertex);
}

void draft_longest_with_walk(struct draft_job *draft)
{
    draft_start(draft);
    draft_head(draft, MVZ_FILL, 2, 256);
    draft_full_lists(draft);
    draft_longest_walk(draft);
    draft_most_edits(draft);
}
