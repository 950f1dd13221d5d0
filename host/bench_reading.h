/* The second table of the bench: reading alone. */
#ifndef BENCH_READING_H
#define BENCH_READING_H

void print_reading_table(unsigned rounds);

#endif
