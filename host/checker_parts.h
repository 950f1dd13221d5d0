/* What the two halves of the checker share: the reader's and the solver's. */
#ifndef CHECKER_PARTS_H
#define CHECKER_PARTS_H

#include "checker.h"

/* Writes a record's header; hands back where its payload starts. */
uint8_t *put_header(uint8_t *p, size_t length, unsigned kind);

/* The facet of a simplex of k vertices that leaves out vertex number `out`. */
void facet(const uint8_t *vertex, unsigned k, unsigned out, uint8_t *result);

/* The name of a simplex of k vertices, or the list's count where it is not listed. */
unsigned name_of(const struct list *list, const uint8_t *vertex, unsigned k);

#endif
