#include "checker.h"

#include <string.h>

#include "checker_parts.h"

/* ---- bytes ---- */

static unsigned get16(const uint8_t *p)
{
    return (unsigned)p[0] | (unsigned)p[1] << 8;
}

static uint32_t get32(const uint8_t *p)
{
    return (uint32_t)get16(p) | (uint32_t)get16(p + 2) << 16;
}

static uint8_t *put16(uint8_t *p, unsigned n)
{
    p[0] = (uint8_t)(n & 0xff);
    p[1] = (uint8_t)(n >> 8 & 0xff);
    return p + 2;
}

static uint8_t *put32(uint8_t *p, uint32_t n)
{
    return put16(put16(p, n & 0xffff), n >> 16);
}

uint8_t *put_header(uint8_t *p, size_t length, unsigned kind)
{
    return put16(put32(p, (uint32_t)length), kind);
}

/* ---- reading ---- */

struct record {
    size_t offset; /* of the header, in the job */
    unsigned kind;
    const uint8_t *payload;
    size_t length; /* of the payload */
};

static const struct verdict SOUND = {0, 0};

static struct verdict refuse(unsigned number, size_t place)
{
    struct verdict verdict = {number, (uint32_t)place};
    return verdict;
}

/* The place of the payload's byte i. */
static size_t offset_of(const struct record *record, size_t i)
{
    return record->offset + MVZ_RECORD_HEADER + i;
}

/* A filling's rim has one dimension less than the filling; a class keeps its own. */
unsigned checker_chain_dimension(const struct job *job)
{
    return job->question == MVZ_FILL ? job->d - 1 : job->d;
}

/* `before` is the number of records that stand before this one. */
static bool may_stand(const struct job *job, unsigned before, unsigned kind)
{
    if (before < 4)
        return kind == before + 1;
    if (before == 4)
        return kind == MVZ_KIND_CHAIN
            || (kind == MVZ_KIND_WALK && checker_chain_dimension(job) == 1);
    return kind == MVZ_KIND_EDIT && before - 5 < EDITS_MOST;
}

static bool shape_is_allowed(const struct record *record)
{
    size_t n = record->length;
    switch (record->kind) {
    case MVZ_KIND_HEAD:
        return n == 4;
    case MVZ_KIND_EDGES:
        return n % 2 == 0 && n <= 1024;
    case MVZ_KIND_TRIANGLES:
        return n % 3 == 0 && n <= 1536;
    case MVZ_KIND_TETRAHEDRA:
        return n % 4 == 0 && n <= 2048;
    case MVZ_KIND_CHAIN:
        return n % 2 == 0 && n <= 1024;
    case MVZ_KIND_WALK:
        return n <= 1024;
    default: /* an edit: its first two bytes decide its length */
        if (n < 2)
            return false;
        switch (get16(record->payload)) {
        case MVZ_KIND_EDGES:
            return n == 8;
        case MVZ_KIND_TRIANGLES:
            return n == 9;
        case MVZ_KIND_TETRAHEDRA:
            return n == 10;
        default:
            return false;
        }
    }
}

/* A simplex of k vertices as one number, for quick comparing within its list. */
static uint32_t key_of(const uint8_t *vertex, unsigned k)
{
    uint32_t key = 0;
    for (unsigned i = 0; i < k; i++)
        key = key << 8 | vertex[i];
    return key;
}

unsigned name_of(const struct list *list, const uint8_t *vertex, unsigned k)
{
    uint32_t key = key_of(vertex, k);
    unsigned name = 0;
    while (name < list->count && list->key[name] != key)
        name++;
    return name;
}

static void append(struct list *list, const uint8_t *vertex, unsigned k)
{
    unsigned name = list->count++;
    memcpy(list->vertex[name], vertex, k);
    list->key[name] = key_of(vertex, k);
    list->name_at[name] = (uint16_t)name;
}

/* The vertices are a list that is never written: number i stands at rank i. */
static void list_vertices(struct job *job)
{
    for (unsigned i = 0; i < job->v; i++) {
        uint8_t vertex = (uint8_t)i;
        append(&job->list[0], &vertex, 1);
    }
}

static struct verdict read_head(const struct record *record, struct job *job)
{
    job->question = record->payload[0];
    job->d = record->payload[1];
    job->v = get16(record->payload + 2);
    bool fits = job->v <= VERTEX_MOST
        && ((job->question == MVZ_FILL && job->d >= 1 && job->d <= 3)
            || (job->question == MVZ_CLASS && job->d <= 2));
    if (!fits)
        return refuse(MVZ_BAD_HEAD, 0);
    list_vertices(job);
    return SOUND;
}

static bool is_listed(const struct list *list, const uint8_t *vertex, unsigned k)
{
    return name_of(list, vertex, k) < list->count;
}

static bool rises_below(const uint8_t *vertex, unsigned k, unsigned v)
{
    for (unsigned i = 0; i < k; i++)
        if (vertex[i] >= v || (i > 0 && vertex[i] <= vertex[i - 1]))
            return false;
    return true;
}

void facet(const uint8_t *vertex, unsigned k, unsigned out, uint8_t *result)
{
    for (unsigned i = 0, j = 0; i < k; i++)
        if (i != out)
            result[j++] = vertex[i];
}

static bool facets_are_listed(const struct job *job, const uint8_t *vertex, unsigned k)
{
    for (unsigned out = 0; out < k; out++) {
        uint8_t face[4] = {0};
        facet(vertex, k, out, face);
        if (!is_listed(&job->list[k - 2], face, k - 1))
            return false;
    }
    return true;
}

/* The kind of a list is also the number of vertices of each of its simplices. */
static struct verdict read_list(const struct record *record, struct job *job)
{
    unsigned k = record->kind;
    struct list *list = &job->list[k - 1];
    for (size_t i = 0; i < record->length; i += k) {
        const uint8_t *vertex = record->payload + i;
        if (!rises_below(vertex, k, job->v))
            return refuse(MVZ_BAD_VERTEX, offset_of(record, i));
        if (is_listed(list, vertex, k))
            return refuse(MVZ_TWICE, offset_of(record, i));
        if (!facets_are_listed(job, vertex, k))
            return refuse(MVZ_NO_FACE, offset_of(record, i));
        append(list, vertex, k);
    }
    return SOUND;
}

static struct verdict read_positions(const struct record *record, struct job *job)
{
    unsigned count = job->list[checker_chain_dimension(job)].count;
    unsigned lowest = 0; /* the smallest position that still rises */
    for (size_t i = 0; i < record->length; i += 2) {
        unsigned position = get16(record->payload + i);
        if (position >= count || position < lowest)
            return refuse(MVZ_CHAIN_ITEM, offset_of(record, i));
        job->in_chain[position] = true;
        lowest = position + 1;
    }
    return SOUND;
}

static struct verdict read_walk(const struct record *record, struct job *job)
{
    const struct list *edges = &job->list[1];
    for (size_t i = 0; i < record->length; i++) {
        uint8_t a = record->payload[i];
        uint8_t b = record->payload[(i + 1) % record->length];
        uint8_t edge[2] = {a < b ? a : b, a < b ? b : a};
        unsigned name = name_of(edges, edge, 2);
        if (name == edges->count)
            return refuse(MVZ_CHAIN_ITEM, offset_of(record, i));
        job->in_chain[name] = true;
    }
    return SOUND;
}

static void move_name(struct list *list, unsigned from, unsigned to)
{
    uint16_t name = list->name_at[from];
    for (unsigned i = from; i < to; i++)
        list->name_at[i] = list->name_at[i + 1];
    for (unsigned i = from; i > to; i--)
        list->name_at[i] = list->name_at[i - 1];
    list->name_at[to] = name;
}

static struct verdict read_edit(const struct record *record, struct job *job)
{
    unsigned k = get16(record->payload);
    unsigned seen = get16(record->payload + 2);
    unsigned new = get16(record->payload + 4);
    const uint8_t *vertex = record->payload + 6;
    struct list *list = &job->list[k - 1];
    if (seen >= list->count || list->key[list->name_at[seen]] != key_of(vertex, k))
        return refuse(MVZ_STALE, record->offset);
    if (new >= list->count)
        return refuse(MVZ_BAD_TARGET, record->offset);
    move_name(list, seen, new);
    return SOUND;
}

static struct verdict read_payload(const struct record *record, struct job *job)
{
    switch (record->kind) {
    case MVZ_KIND_HEAD:
        return read_head(record, job);
    case MVZ_KIND_CHAIN:
        return read_positions(record, job);
    case MVZ_KIND_WALK:
        return read_walk(record, job);
    case MVZ_KIND_EDIT:
        return read_edit(record, job);
    default:
        return read_list(record, job);
    }
}

static struct verdict read_record(const uint8_t *bytes, size_t length, size_t offset,
                                  unsigned before, struct job *job, size_t *next)
{
    size_t left = length - offset;
    if (left < MVZ_RECORD_HEADER || get32(bytes + offset) > left - MVZ_RECORD_HEADER)
        return refuse(MVZ_CUT, offset);
    struct record record = {offset, get16(bytes + offset + 4),
                            bytes + offset + MVZ_RECORD_HEADER, get32(bytes + offset)};
    if (!may_stand(job, before, record.kind))
        return refuse(MVZ_BAD_KIND, offset);
    if (!shape_is_allowed(&record))
        return refuse(MVZ_BAD_SHAPE, offset);
    *next = offset_of(&record, record.length);
    return read_payload(&record, job);
}

/* No simplices and an empty chain; what stands past a count does not matter. */
static void start(struct job *job)
{
    job->question = job->d = job->v = 0;
    for (unsigned k = 0; k < 4; k++)
        job->list[k].count = 0;
    memset(job->in_chain, 0, sizeof job->in_chain);
}

struct verdict checker_read(const uint8_t *bytes, size_t length, struct job *job)
{
    start(job);
    if (length > MVZ_JOB_MOST)
        return refuse(MVZ_TOO_LONG, 0);
    size_t offset = 0;
    unsigned before = 0;
    for (; offset < length; before++) {
        struct verdict verdict = read_record(bytes, length, offset, before, job, &offset);
        if (verdict.refusal != 0)
            return verdict;
    }
    return before < 5 ? refuse(MVZ_BAD_KIND, length) : SOUND;
}

/* ---- the normal form ---- */

static uint8_t *put_list(uint8_t *p, const struct list *list, unsigned kind)
{
    p = put_header(p, (size_t)list->count * kind, kind);
    for (unsigned rank = 0; rank < list->count; rank++, p += kind)
        memcpy(p, list->vertex[list->name_at[rank]], kind);
    return p;
}

static uint8_t *put_chain(uint8_t *p, const struct job *job)
{
    const struct list *list = &job->list[checker_chain_dimension(job)];
    uint8_t *header = p;
    p += MVZ_RECORD_HEADER;
    for (unsigned rank = 0; rank < list->count; rank++)
        if (job->in_chain[list->name_at[rank]])
            p = put16(p, rank);
    put_header(header, (size_t)(p - header) - MVZ_RECORD_HEADER, MVZ_KIND_CHAIN);
    return p;
}

size_t checker_normal_form(const struct job *job, uint8_t *out)
{
    uint8_t *p = put_header(out, 4, MVZ_KIND_HEAD);
    *p++ = (uint8_t)job->question;
    *p++ = (uint8_t)job->d;
    p = put16(p, job->v);
    for (unsigned kind = MVZ_KIND_EDGES; kind <= MVZ_KIND_TETRAHEDRA; kind++)
        p = put_list(p, &job->list[kind - 1], kind);
    return (size_t)(put_chain(p, job) - out);
}

/* ---- the answer ---- */

size_t checker_refusal_record(struct verdict verdict, uint8_t *out)
{
    uint8_t *p = put_header(out, 6, MVZ_KIND_REFUSAL);
    put32(put16(p, verdict.refusal), verdict.place);
    return MVZ_REFUSAL_RECORD;
}

size_t checker_answer(const uint8_t *bytes, size_t length, uint8_t *out)
{
    struct job job;
    struct verdict verdict = checker_read(bytes, length, &job);
    if (verdict.refusal != 0)
        return checker_refusal_record(verdict, out);
    return checker_solve(&job, checker_choices(&job) <= TRY_ALL_MOST ? TRY_ALL_CHAINS : ELIMINATE,
                         out);
}
