/* Jobs that are put together record by record. */
#ifndef DRAFT_H
#define DRAFT_H

#include <stddef.h>
#include <stdint.h>

/* Turns hex with spaces into bytes; the number of bytes. */
size_t bytes_of_hex(const char *hex, uint8_t *out, size_t room);

enum { DRAFT_MOST = 8192 };

/* A job that is being put together. */
struct draft_job {
    size_t length;
    uint8_t bytes[DRAFT_MOST];
};

void draft_start(struct draft_job *draft);
void draft_record(struct draft_job *draft, unsigned kind, const uint8_t *payload, size_t length);
void draft_head(struct draft_job *draft, unsigned question, unsigned d, unsigned v);
void draft_positions(struct draft_job *draft, const unsigned *position, unsigned count);
void draft_first_positions(struct draft_job *draft, unsigned count);
void draft_hex(struct draft_job *draft, const char *hex);

#endif
