#include "plain_reader.h"

#include <string.h>

enum { WALK_MOST = 1024 }; /* steps */

/* How far the reading has come.  Each step says whether the reading goes on. */
struct reading {
    const uint8_t *bytes;
    size_t length;
    size_t at; /* where the next record starts */
    struct plain_job *job;
    struct verdict verdict;
};

struct record {
    size_t offset; /* of the header */
    unsigned kind;
    const uint8_t *payload;
    size_t length; /* of the payload */
};

static bool refuse(struct reading *reading, unsigned number, size_t place)
{
    reading->verdict.refusal = number;
    reading->verdict.place = (uint32_t)place;
    return false;
}

/* ---- records ---- */

static unsigned get16(const uint8_t *p)
{
    return p[0] | (unsigned)p[1] << 8;
}

static uint32_t get32(const uint8_t *p)
{
    return get16(p) | (uint32_t)get16(p + 2) << 16;
}

/* The place of the payload's byte i. */
static size_t place_in(const struct record *record, size_t i)
{
    return record->offset + MVZ_RECORD_HEADER + i;
}

/* A missing record is refused: edits are asked for only where bytes are left. */
static bool next_record(struct reading *reading, struct record *record)
{
    size_t left = reading->length - reading->at;
    const uint8_t *header = reading->bytes + reading->at;
    if (left == 0)
        return refuse(reading, MVZ_BAD_KIND, reading->length);
    if (left < MVZ_RECORD_HEADER || get32(header) > left - MVZ_RECORD_HEADER)
        return refuse(reading, MVZ_CUT, reading->at);
    record->offset = reading->at;
    record->kind = get16(header + 4);
    record->payload = header + MVZ_RECORD_HEADER;
    record->length = get32(header);
    reading->at += MVZ_RECORD_HEADER + record->length;
    return true;
}

/* ---- the head ---- */

static bool read_head(struct reading *reading)
{
    struct plain_job *job = reading->job;
    struct record record;
    if (!next_record(reading, &record))
        return false;
    if (record.kind != MVZ_KIND_HEAD)
        return refuse(reading, MVZ_BAD_KIND, record.offset);
    if (record.length != 4)
        return refuse(reading, MVZ_BAD_SHAPE, record.offset);
    job->question = record.payload[0];
    job->d = record.payload[1];
    job->v = get16(record.payload + 2);
    bool fill = job->question == MVZ_FILL && job->d >= 1 && job->d <= 3;
    bool class = job->question == MVZ_CLASS && job->d <= 2;
    return ((fill || class) && job->v <= VERTEX_MOST) || refuse(reading, MVZ_BAD_HEAD, 0);
}

/* ---- lists ---- */

/* The slot that holds the simplex, or the free one where it would go. */
static uint16_t *slot_of(struct plain_list *list, uint32_t key)
{
    unsigned slot = key * UINT32_C(2654435761) >> 22; /* ten bits, for 1,024 slots */
    while (list->slot[slot] != 0 && list->key[list->slot[slot] - 1] != key)
        slot = (slot + 1) % PLAIN_SLOTS;
    return &list->slot[slot];
}

static bool is_listed(struct plain_list *list, uint32_t key)
{
    return *slot_of(list, key) != 0;
}

static void append(struct plain_list *list, uint16_t *slot, uint32_t key)
{
    list->key[list->count] = key;
    list->at_rank[list->count] = (uint16_t)list->count;
    *slot = (uint16_t)++list->count;
}

/* The key of k vertices that rise and stay below v. */
static bool key_of(const uint8_t *vertex, unsigned k, unsigned v, uint32_t *key)
{
    uint32_t sum = vertex[0];
    for (unsigned i = 1; i < k; i++) {
        if (vertex[i] <= vertex[i - 1])
            return false;
        sum = sum << 8 | vertex[i];
    }
    *key = sum;
    return vertex[k - 1] < v; /* they rise, so the last is the largest */
}

/* A key without one of its bytes: number `out`, counted from the last vertex. */
static uint32_t facet_key(uint32_t key, unsigned out)
{
    uint32_t after = key & ((UINT32_C(1) << 8 * out) - 1);
    uint64_t before = (uint64_t)key >> 8 * (out + 1) << 8 * out; /* 64 bits: it may shift by 32 */
    return (uint32_t)before | after;
}

/* An edge's facets are vertices, and those below v are always there. */
static bool facets_are_listed(struct plain_job *job, uint32_t key, unsigned k)
{
    for (unsigned out = 0; k > 2 && out < k; out++)
        if (!is_listed(&job->list[k - 3], facet_key(key, out)))
            return false;
    return true;
}

static bool read_simplex(struct reading *reading, const struct record *record, size_t i)
{
    unsigned k = record->kind;
    struct plain_list *list = &reading->job->list[k - 2];
    uint32_t key;
    if (!key_of(record->payload + i, k, reading->job->v, &key))
        return refuse(reading, MVZ_BAD_VERTEX, place_in(record, i));
    uint16_t *slot = slot_of(list, key);
    if (*slot != 0)
        return refuse(reading, MVZ_TWICE, place_in(record, i));
    if (!facets_are_listed(reading->job, key, k))
        return refuse(reading, MVZ_NO_FACE, place_in(record, i));
    append(list, slot, key);
    return true;
}

/* A list's kind is also the number of vertices of its simplices. */
static bool read_list(struct reading *reading, unsigned kind)
{
    struct plain_list *list = &reading->job->list[kind - 2];
    struct record record;
    list->count = 0;
    memset(list->slot, 0, sizeof list->slot);
    if (!next_record(reading, &record))
        return false;
    if (record.kind != kind)
        return refuse(reading, MVZ_BAD_KIND, record.offset);
    if (record.length % kind != 0 || record.length / kind > LIST_MOST)
        return refuse(reading, MVZ_BAD_SHAPE, record.offset);
    for (size_t i = 0; i < record.length; i += kind)
        if (!read_simplex(reading, &record, i))
            return false;
    return true;
}

/* ---- the chain ---- */

/* A rim has one dimension less than what fills it. */
static unsigned chain_dimension(const struct plain_job *job)
{
    return job->question == MVZ_FILL ? job->d - 1 : job->d;
}

static bool read_positions(struct reading *reading, const struct record *record)
{
    struct plain_job *job = reading->job;
    unsigned dimension = chain_dimension(job);
    unsigned count = dimension == 0 ? job->v : job->list[dimension - 1].count;
    unsigned least = 0; /* what the next position must reach */
    if (record->length % 2 != 0 || record->length > 2 * LIST_MOST)
        return refuse(reading, MVZ_BAD_SHAPE, record->offset);
    for (size_t i = 0; i < record->length; i += 2) {
        unsigned position = get16(record->payload + i);
        if (position < least || position >= count)
            return refuse(reading, MVZ_CHAIN_ITEM, place_in(record, i));
        job->in_chain[position] = true;
        least = position + 1;
    }
    return true;
}

/* A step to itself has a key that no edge has. */
static bool read_walk(struct reading *reading, const struct record *record)
{
    struct plain_job *job = reading->job;
    if (record->length > WALK_MOST)
        return refuse(reading, MVZ_BAD_SHAPE, record->offset);
    for (size_t i = 0; i < record->length; i++) {
        uint32_t a = record->payload[i];
        uint32_t b = record->payload[i + 1 < record->length ? i + 1 : 0];
        uint16_t slot = *slot_of(&job->list[0], a < b ? a << 8 | b : b << 8 | a);
        if (slot == 0)
            return refuse(reading, MVZ_CHAIN_ITEM, place_in(record, i));
        job->in_chain[slot - 1] = true;
    }
    return true;
}

static bool read_chain(struct reading *reading)
{
    struct record record;
    memset(reading->job->in_chain, 0, sizeof reading->job->in_chain);
    if (!next_record(reading, &record))
        return false;
    if (record.kind == MVZ_KIND_CHAIN)
        return read_positions(reading, &record);
    if (record.kind == MVZ_KIND_WALK && chain_dimension(reading->job) == 1)
        return read_walk(reading, &record);
    return refuse(reading, MVZ_BAD_KIND, record.offset);
}

/* ---- edits ---- */

static bool stands_at(const struct plain_list *list, unsigned rank, const uint8_t *vertex,
                      unsigned k)
{
    uint32_t key;
    return rank < list->count && key_of(vertex, k, VERTEX_MOST, &key)
        && list->key[list->at_rank[rank]] == key;
}

static void move(struct plain_list *list, unsigned seen, unsigned new)
{
    uint16_t *rank = list->at_rank;
    uint16_t moved = rank[seen];
    if (seen < new)
        memmove(rank + seen, rank + seen + 1, (new - seen) * sizeof *rank);
    else
        memmove(rank + new + 1, rank + new, (seen - new) * sizeof *rank);
    rank[new] = moved;
}

static bool read_edit(struct reading *reading, unsigned before)
{
    struct record record;
    if (!next_record(reading, &record))
        return false;
    if (record.kind != MVZ_KIND_EDIT || before == EDITS_MOST)
        return refuse(reading, MVZ_BAD_KIND, record.offset);
    unsigned k = record.length < 2 ? 0 : get16(record.payload);
    if (k < MVZ_KIND_EDGES || k > MVZ_KIND_TETRAHEDRA || record.length != 6 + k)
        return refuse(reading, MVZ_BAD_SHAPE, record.offset);
    struct plain_list *list = &reading->job->list[k - 2];
    unsigned seen = get16(record.payload + 2);
    unsigned new = get16(record.payload + 4);
    if (!stands_at(list, seen, record.payload + 6, k))
        return refuse(reading, MVZ_STALE, record.offset);
    if (new >= list->count)
        return refuse(reading, MVZ_BAD_TARGET, record.offset);
    move(list, seen, new);
    return true;
}

static bool read_edits(struct reading *reading)
{
    for (unsigned before = 0; reading->at < reading->length; before++)
        if (!read_edit(reading, before))
            return false;
    return true;
}

/* ---- the whole job ---- */

struct verdict plain_read(const uint8_t *bytes, size_t length, struct plain_job *job)
{
    struct reading reading = {bytes, length, 0, job, {0, 0}};
    if (length > MVZ_JOB_MOST)
        refuse(&reading, MVZ_TOO_LONG, 0);
    else
        (void)(read_head(&reading) && read_list(&reading, MVZ_KIND_EDGES)
               && read_list(&reading, MVZ_KIND_TRIANGLES)
               && read_list(&reading, MVZ_KIND_TETRAHEDRA) && read_chain(&reading)
               && read_edits(&reading));
    return reading.verdict;
}
