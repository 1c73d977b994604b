/* Works that are timed against each other in one run, so that their ratios mean something whatever else the machine
 * does. */
#ifndef BENCH_CLOCK_H
#define BENCH_CLOCK_H

#include <stddef.h>

/* Adds a work and what it works with; gives its place. */
size_t add_work(void (*run)(void *with), void *with);

/* Times all works in turns, many times round. */
void time_works(void);

/* The nanoseconds of a work in its best turn. */
double time_of(size_t place);

/* One measured number: which part of the clock, what was measured, the number, its unit. */
void print_row(const char *part, const char *of, double number, const char *unit);

/* cipher.c: cipher and MAC beside nettle's and OpenSSL's. */
void add_cipher_works(void);
void print_cipher(void);
double block_time(void);     /* of a block within a long MAC */
double scheduled_time(void); /* of a block with its key schedule */

/* receive.c: a good KSM received, by number of partners and by length. */
void add_receive_works(void);
void print_receive(void);

#endif
