/*
 * A small panel.  It moves a triangle and saves the new order, has an edit
 * refused that was made on an old screen, and asks for a patch.
 */
#include <stdio.h>
#include <stdlib.h>
#include <string.h>

#include "mvozelanke.h"

/* A job in the making: the bytes, and room for more records. */
struct job {
    uint8_t bytes[MVZ_JOB_MOST];
    size_t length;
};

/* Fill, d 2, four vertices: the shell 012 013 023 123, to patch the rim 01 02 12. */
static const uint8_t shell[] = {
    4, 0, 0, 0, MVZ_KIND_HEAD, 0, MVZ_FILL, 2, 4, 0,
    12, 0, 0, 0, MVZ_KIND_EDGES, 0, 0, 1, 0, 2, 0, 3, 1, 2, 1, 3, 2, 3,
    12, 0, 0, 0, MVZ_KIND_TRIANGLES, 0, 0, 1, 2, 0, 1, 3, 0, 2, 3, 1, 2, 3,
    0, 0, 0, 0, MVZ_KIND_TETRAHEDRA, 0,
    6, 0, 0, 0, MVZ_KIND_CHAIN, 0, 0, 0, 1, 0, 3, 0,
};

/* "Triangle 012, which I see at place 0, goes to place 3." */
static const uint8_t move_012[] = {
    9, 0, 0, 0, MVZ_KIND_EDIT, 0, MVZ_KIND_TRIANGLES, 0, 0, 0, 3, 0, 0, 1, 2,
};

static void append(struct job *job, const uint8_t *record, size_t length)
{
    if (length > sizeof job->bytes - job->length) {
        fprintf(stderr, "panel: the job is full\n");
        exit(2);
    }
    memcpy(job->bytes + job->length, record, length);
    job->length += length;
}

static const char *in_words(uint32_t refusal)
{
    switch (refusal) {
    case MVZ_STALE:
        return "the simplex is no longer where the edit saw it; look at the list again";
    case MVZ_BAD_TARGET:
        return "there is no such place in the list";
    case MVZ_RIM_OPEN:
        return "the rim is not closed";
    case MVZ_NO_FILLING:
        return "nothing fills this rim";
    default:
        return "see docs/REFUSALS.md";
    }
}

/* Saves the order with all edits worked in.  A refused job stays as it was. */
static int save(struct job *job)
{
    struct job saved;
    uint64_t result = mvz_write(job->bytes, job->length, saved.bytes, sizeof saved.bytes);
    if (mvz_refusal(result) != MVZ_NOT_REFUSED) {
        printf("not saved: refusal %u at byte %u: %s\n", (unsigned)mvz_refusal(result),
               (unsigned)mvz_place(result), in_words(mvz_refusal(result)));
        return 0;
    }
    saved.length = mvz_length(result);
    printf("saved: %u bytes\n", (unsigned)saved.length);
    *job = saved;
    return 1;
}

/* Tries an edit on a copy, so that a refused one leaves nothing behind. */
static void edit(struct job *job, const uint8_t *record, size_t length)
{
    struct job tried = *job;
    append(&tried, record, length);
    if (save(&tried))
        *job = tried;
}

static unsigned number_at(const uint8_t *p)
{
    return (unsigned)p[0] | (unsigned)p[1] << 8;
}

static void print_answer(const uint8_t *record)
{
    unsigned length = number_at(record);
    if (number_at(record + 4) == MVZ_KIND_REFUSAL) {
        printf("no patch: refusal %u: %s\n", number_at(record + 6), in_words(number_at(record + 6)));
        return;
    }
    unsigned corners = record[6] + 1u;
    printf("patch:");
    for (unsigned i = 1; i < length; i += corners) {
        printf(" ");
        for (unsigned j = 0; j < corners; j++)
            printf("%u", record[6 + i + j]);
    }
    printf("\n");
}

static void ask(const struct job *job)
{
    static uint8_t out[MVZ_OUT_ROOM], work[MVZ_WORK_ROOM];
    if (mvz_answer(job->bytes, job->length, out, sizeof out, work, sizeof work) == 0) {
        fprintf(stderr, "panel: too little room was lent\n");
        exit(2);
    }
    print_answer(out);
}

int main(void)
{
    static struct job job;
    append(&job, shell, sizeof shell);
    printf("asking in the first order\n");
    ask(&job);
    printf("moving 012 from place 0 to place 3\n");
    edit(&job, move_012, sizeof move_012);
    printf("the same move from an old screen\n");
    edit(&job, move_012, sizeof move_012);
    printf("asking in the saved order\n");
    ask(&job);
    return 0;
}
