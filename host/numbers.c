#include "numbers.h"

/* Digits alone: strtoul would take signs, blanks and what is too large. */
bool number_of(const char *word, unsigned least, unsigned most, unsigned *number)
{
    unsigned long long sum = 0;
    if (*word == '\0')
        return false;
    for (; *word != '\0'; word++) {
        if (*word < '0' || *word > '9')
            return false;
        sum = sum * 10 + (unsigned)(*word - '0');
        if (sum > most)
            return false;
    }
    *number = (unsigned)sum;
    return sum >= least;
}
