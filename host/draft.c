#include "draft.h"

#include <stdio.h>
#include <stdlib.h>
#include <string.h>

#include "mvozelanke.h"

void draft_start(struct draft_job *draft)
{
    draft->length = 0;
}

void draft_record(struct draft_job *draft, unsigned kind, const uint8_t *payload, size_t length)
{
    uint8_t *p = draft->bytes + draft->length;
    for (unsigned i = 0; i < 4; i++)
        p[i] = (uint8_t)(length >> (8 * i) & 0xff);
    p[4] = (uint8_t)kind;
    p[5] = 0;
    if (length > 0)
        memcpy(p + MVZ_RECORD_HEADER, payload, length);
    draft->length += MVZ_RECORD_HEADER + length;
}

void draft_head(struct draft_job *draft, unsigned question, unsigned d, unsigned v)
{
    uint8_t payload[4] = {(uint8_t)question, (uint8_t)d, (uint8_t)(v & 0xff), (uint8_t)(v >> 8)};
    draft_record(draft, MVZ_KIND_HEAD, payload, sizeof payload);
}

void draft_positions(struct draft_job *draft, const unsigned *position, unsigned count)
{
    uint8_t payload[2048];
    for (unsigned i = 0; i < count; i++) {
        payload[2 * i] = (uint8_t)(position[i] & 0xff);
        payload[2 * i + 1] = (uint8_t)(position[i] >> 8);
    }
    draft_record(draft, MVZ_KIND_CHAIN, payload, 2 * (size_t)count);
}

void draft_first_positions(struct draft_job *draft, unsigned count)
{
    unsigned position[1024];
    for (unsigned i = 0; i < count; i++)
        position[i] = i;
    draft_positions(draft, position, count);
}

static int digit(char c)
{
    if (c >= '0' && c <= '9')
        return c - '0';
    if (c >= 'a' && c <= 'f')
        return c - 'a' + 10;
    return -1;
}

size_t bytes_of_hex(const char *hex, uint8_t *out, size_t room)
{
    size_t count = 0;
    while (*hex != '\0') {
        if (*hex == ' ') {
            hex++;
            continue;
        }
        int high = digit(hex[0]);
        int low = high < 0 ? -1 : digit(hex[1]);
        if (low < 0 || count == room) {
            fprintf(stderr, "bad hex in a hand-made job: '%s'\n", hex);
            exit(2);
        }
        out[count++] = (uint8_t)(high * 16 + low);
        hex += 2;
    }
    return count;
}

void draft_hex(struct draft_job *draft, const char *hex)
{
    draft->length += bytes_of_hex(hex, draft->bytes + draft->length, DRAFT_MOST - draft->length);
}
