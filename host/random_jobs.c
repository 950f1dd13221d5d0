#include "random_jobs.h"

#include <string.h>

#include "mvozelanke.h"

/* ---- dice ---- */

static uint64_t next(struct dice *dice)
{
    dice->state ^= dice->state << 13;
    dice->state ^= dice->state >> 7;
    dice->state ^= dice->state << 17;
    return dice->state;
}

/* Neighbouring seeds must not start alike, so the seed is mixed; the state is never 0. */
void dice_seed(struct dice *dice, uint64_t seed)
{
    dice->state = (seed + 1) * UINT64_C(0x9e3779b97f4a7c15) | 1;
    for (int i = 0; i < 8; i++)
        next(dice);
}

unsigned dice_below(struct dice *dice, unsigned n)
{
    return (unsigned)((next(dice) >> 32) % n);
}

bool dice_chance(struct dice *dice, unsigned percent)
{
    return dice_below(dice, 100) < percent;
}

/* ---- a random complex ---- */

enum { MOST = 512, CORNERS_MOST = 64 };

struct draft {
    unsigned question, d, v;
    unsigned corners;                /* vertices that simplices use */
    uint8_t corner[CORNERS_MOST];    /* their numbers, rising */
    unsigned count[4];
    uint8_t simplex[4][MOST][4];     /* as the next edit sees them; unused bytes are 0 */
};

/* How much a complex of this size may hold, and how likely a simplex is. */
struct measure {
    unsigned corners;
    unsigned most[4];
    unsigned percent[4];
};

/* Small complexes are small enough to try all chains of most of them. */
static struct measure draw_measure(struct dice *dice, enum job_size size)
{
    static const unsigned likely[] = {40, 70, 90, 100, 100};
    struct measure m = {0, {0}, {0}};
    switch (size) {
    case SMALL:
        m.corners = dice_chance(dice, 15) ? dice_below(dice, 4) : 4 + dice_below(dice, 3);
        m.most[1] = 3 + dice_below(dice, 13);
        m.most[2] = 1 + dice_below(dice, 14);
        m.most[3] = 1 + dice_below(dice, 10);
        break;
    case MIDDLE:
        m.corners = 6 + dice_below(dice, 12);
        for (unsigned k = 1; k < 4; k++)
            m.most[k] = 10 + dice_below(dice, 90);
        break;
    case LARGE:
        m.corners = 12 + dice_below(dice, 22);
        for (unsigned k = 1; k < 4; k++)
            m.most[k] = MOST - dice_below(dice, 20) * dice_below(dice, 20);
        break;
    }
    for (unsigned k = 0; k < 4; k++)
        m.percent[k] = likely[dice_below(dice, 5)];
    return m;
}

/* Some jobs use all of their vertices, some use a few of many. */
static void draw_corners(struct dice *dice, struct draft *draft, unsigned corners)
{
    unsigned spare = dice_chance(dice, 50) ? 0 : dice_below(dice, 257 - corners);
    draft->corners = corners;
    draft->v = corners + spare;
    unsigned number = 0;
    for (unsigned i = 0; i < corners; i++, number++) {
        unsigned skip = spare == 0 ? 0 : dice_below(dice, spare / (corners - i) + 1);
        spare -= skip;
        number += skip;
        draft->corner[i] = (uint8_t)number;
    }
}

static bool is_listed(const struct draft *draft, const uint8_t *vertex, unsigned k)
{
    for (unsigned i = 0; i < draft->count[k - 1]; i++)
        if (memcmp(draft->simplex[k - 1][i], vertex, 4) == 0)
            return true;
    return false;
}

static bool has_facets(const struct draft *draft, const uint8_t *vertex, unsigned k)
{
    for (unsigned out = 0; k > 2 && out < k; out++) {
        uint8_t facet[4] = {0};
        memcpy(facet, vertex, out);
        memcpy(facet + out, vertex + out + 1, k - 1 - out);
        if (!is_listed(draft, facet, k - 1))
            return false;
    }
    return true;
}

static void append(struct draft *draft, const uint8_t *vertex, unsigned k)
{
    memcpy(draft->simplex[k - 1][draft->count[k - 1]++], vertex, 4);
}

/* Goes through all choices of k corners, in rising order. */
static void draw_list(struct dice *dice, struct draft *draft, unsigned k, unsigned most,
                      unsigned percent)
{
    unsigned pick[4];
    unsigned n = draft->corners;
    for (unsigned i = 0; i < k; i++)
        pick[i] = i;
    while (k <= n && draft->count[k - 1] < most) {
        uint8_t vertex[4] = {0};
        for (unsigned i = 0; i < k; i++)
            vertex[i] = draft->corner[pick[i]];
        if (dice_chance(dice, percent) && has_facets(draft, vertex, k))
            append(draft, vertex, k);
        unsigned i = k;
        while (i > 0 && pick[i - 1] == n - k + i - 1)
            i--;
        if (i == 0)
            return;
        pick[i - 1]++;
        for (; i < k; i++)
            pick[i] = pick[i - 1] + 1;
    }
}

static void shuffle(struct dice *dice, struct draft *draft, unsigned k)
{
    for (unsigned i = draft->count[k - 1]; i > 1; i--) {
        unsigned j = dice_below(dice, i);
        uint8_t held[4];
        memcpy(held, draft->simplex[k - 1][i - 1], 4);
        memcpy(draft->simplex[k - 1][i - 1], draft->simplex[k - 1][j], 4);
        memcpy(draft->simplex[k - 1][j], held, 4);
    }
}

static void draw_complex(struct dice *dice, enum job_size size, struct draft *draft)
{
    struct measure m = draw_measure(dice, size);
    memset(draft->count, 0, sizeof draft->count);
    draw_corners(dice, draft, m.corners);
    for (unsigned k = 2; k <= 4; k++) {
        draw_list(dice, draft, k, m.most[k - 1], m.percent[k - 1]);
        shuffle(dice, draft, k);
    }
    draft->question = 1 + dice_below(dice, 2);
    draft->d = dice_below(dice, 3) + (draft->question == MVZ_FILL);
}

/* ---- writing records ---- */

struct pen {
    uint8_t *at;
    uint8_t *record;
};

static void put(struct pen *pen, unsigned byte)
{
    *pen->at++ = (uint8_t)byte;
}

static void put16(struct pen *pen, unsigned n)
{
    put(pen, n & 0xff);
    put(pen, n >> 8);
}

static void begin(struct pen *pen, unsigned kind)
{
    pen->record = pen->at;
    pen->at += 4;
    put16(pen, kind);
}

static void end(struct pen *pen)
{
    size_t length = (size_t)(pen->at - pen->record) - MVZ_RECORD_HEADER;
    for (unsigned i = 0; i < 4; i++)
        pen->record[i] = (uint8_t)(length >> (8 * i) & 0xff);
}

static void put_vertices(struct pen *pen, const uint8_t *vertex, unsigned k)
{
    for (unsigned i = 0; i < k; i++)
        put(pen, vertex[i]);
}

static void put_head_and_lists(struct pen *pen, const struct draft *draft)
{
    begin(pen, MVZ_KIND_HEAD);
    put(pen, draft->question);
    put(pen, draft->d);
    put16(pen, draft->v);
    end(pen);
    for (unsigned k = 2; k <= 4; k++) {
        begin(pen, k);
        for (unsigned i = 0; i < draft->count[k - 1]; i++)
            put_vertices(pen, draft->simplex[k - 1][i], k);
        end(pen);
    }
}

/* ---- a random chain ---- */

static unsigned chain_dimension(const struct draft *draft)
{
    return draft->question == MVZ_FILL ? draft->d - 1 : draft->d;
}

static unsigned chain_choices(const struct draft *draft)
{
    unsigned k = chain_dimension(draft);
    return k == 0 ? draft->v : draft->count[k];
}

static void flip_position_of(const struct draft *draft, const uint8_t *facet, unsigned k, bool *in)
{
    if (k == 1) {
        in[facet[0]] ^= true;
        return;
    }
    for (unsigned i = 0; i < draft->count[k - 1]; i++)
        if (memcmp(draft->simplex[k - 1][i], facet, 4) == 0)
            in[i] ^= true;
}

static void add_boundary(const struct draft *draft, const uint8_t *vertex, unsigned k, bool *in)
{
    for (unsigned out = 0; out < k; out++) {
        uint8_t facet[4] = {0};
        memcpy(facet, vertex, out);
        memcpy(facet + out, vertex + out + 1, k - 1 - out);
        flip_position_of(draft, facet, k - 1, in);
    }
}

/* Most chains are boundaries, and some of those have a few members too many. */
static void put_chain(struct dice *dice, struct pen *pen, const struct draft *draft)
{
    bool in[MOST] = {false};
    unsigned choices = chain_choices(draft);
    unsigned above = chain_dimension(draft) + 1;
    unsigned percent = dice_below(dice, 101);
    if (dice_chance(dice, 75))
        for (unsigned i = 0; i < draft->count[above]; i++)
            if (dice_chance(dice, percent))
                add_boundary(draft, draft->simplex[above][i], above + 1, in);
    if (dice_chance(dice, 30))
        for (unsigned i = 0; i < choices; i++)
            in[i] ^= dice_chance(dice, percent / 4);
    begin(pen, MVZ_KIND_CHAIN);
    for (unsigned i = 0; i < choices; i++)
        if (in[i])
            put16(pen, i);
    end(pen);
}

static unsigned step_from(struct dice *dice, const struct draft *draft, unsigned vertex)
{
    unsigned n = draft->count[1];
    unsigned start = dice_below(dice, n);
    for (unsigned i = 0; i < n; i++) {
        const uint8_t *edge = draft->simplex[1][(start + i) % n];
        if (edge[0] == vertex || edge[1] == vertex)
            return edge[0] == vertex ? edge[1] : edge[0];
    }
    return vertex;
}

/* Puts the way back over the vertices already put, without the two ends. */
static void put_way_back(struct pen *pen)
{
    const uint8_t *start = pen->record + MVZ_RECORD_HEADER;
    for (const uint8_t *back = pen->at - 2; back > start; back--)
        put(pen, *back);
}

/* Walks until it comes home, or back over its own steps, or breaks off elsewhere. */
static void put_steps(struct dice *dice, struct pen *pen, const struct draft *draft)
{
    unsigned start = draft->simplex[1][dice_below(dice, draft->count[1])][0];
    unsigned here = start;
    for (unsigned left = 2 + dice_below(dice, 30); left > 0; left--) {
        put(pen, here);
        here = step_from(dice, draft, here);
        if (here == start && dice_chance(dice, 70))
            return;
    }
    if (here != start && dice_chance(dice, 60)) {
        put(pen, here);
        put_way_back(pen);
    }
}

static void put_walk(struct dice *dice, struct pen *pen, const struct draft *draft)
{
    begin(pen, MVZ_KIND_WALK);
    if (draft->count[1] > 0 && dice_chance(dice, 90))
        put_steps(dice, pen, draft);
    else if (dice_chance(dice, 20))
        put(pen, dice_below(dice, 4));
    end(pen);
}

/* ---- random edits ---- */

static void move(struct draft *draft, unsigned k, unsigned from, unsigned to)
{
    uint8_t held[4];
    memcpy(held, draft->simplex[k - 1][from], 4);
    for (unsigned i = from; i < to; i++)
        memcpy(draft->simplex[k - 1][i], draft->simplex[k - 1][i + 1], 4);
    for (unsigned i = from; i > to; i--)
        memcpy(draft->simplex[k - 1][i], draft->simplex[k - 1][i - 1], 4);
    memcpy(draft->simplex[k - 1][to], held, 4);
}

/* Now and then the seen position is one off, or the new one is too high. */
static void put_edit(struct dice *dice, struct pen *pen, struct draft *draft)
{
    unsigned k = 2 + dice_below(dice, 3);
    unsigned count = draft->count[k - 1];
    if (count == 0 && dice_chance(dice, 97))
        return;
    unsigned seen = count == 0 ? 0 : dice_below(dice, count);
    unsigned new = count == 0 ? 0 : dice_below(dice, count);
    uint8_t vertex[4] = {0, 1, 2, 3};
    if (count > 0)
        memcpy(vertex, draft->simplex[k - 1][seen], k);
    if (dice_chance(dice, 2))
        seen += dice_chance(dice, 50) ? 1 : 256;
    else if (dice_chance(dice, 2))
        new = dice_chance(dice, 50) ? count : count + 256;
    else if (count > 0)
        move(draft, k, seen, new);
    begin(pen, MVZ_KIND_EDIT);
    put16(pen, k);
    put16(pen, seen);
    put16(pen, new);
    put_vertices(pen, vertex, k);
    end(pen);
}

static void put_edits(struct dice *dice, struct pen *pen, struct draft *draft)
{
    unsigned edits = dice_chance(dice, 50) ? 0
                   : dice_chance(dice, 97) ? 1 + dice_below(dice, 8)
                                           : 63 + dice_below(dice, 4);
    for (unsigned i = 0; i < edits; i++)
        put_edit(dice, pen, draft);
}

size_t random_whole_job(struct dice *dice, enum job_size size, uint8_t *out)
{
    struct draft draft;
    struct pen pen = {out, out};
    draw_complex(dice, size, &draft);
    put_head_and_lists(&pen, &draft);
    if (chain_dimension(&draft) == 1 && dice_chance(dice, 40))
        put_walk(dice, &pen, &draft);
    else
        put_chain(dice, &pen, &draft);
    put_edits(dice, &pen, &draft);
    return (size_t)(pen.at - out);
}
