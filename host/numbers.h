/* Numbers among the words of a command. */
#ifndef NUMBERS_H
#define NUMBERS_H

#include <stdbool.h>

/* The word as a number from least to most; false where it is anything else. */
bool number_of(const char *word, unsigned least, unsigned most, unsigned *number);

#endif
