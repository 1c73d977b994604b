/* The clock: prints what was measured, one number to a line, tabs between part, what, number and unit; behind that the
 * painted stack of every call, as the C test prints it. */
#define _POSIX_C_SOURCE 200809L
#include "clock.h"

#include <stdio.h>
#include <stdlib.h>
#include <time.h>

#include "../tests/face/tests.h"

enum { WORKS_MOST = 64, ROUNDS = 60 };
static const double TURN = 1e6; /* nanoseconds, about */

static struct {
    void (*run)(void *with);
    void *with;
    unsigned long times; /* in a turn */
    double best;
} works[WORKS_MOST];
static size_t count;

size_t add_work(void (*run)(void *with), void *with) {
    if (count == WORKS_MOST) {
        fprintf(stderr, "more works than the clock has places\n");
        exit(1);
    }
    works[count].run = run;
    works[count].with = with;
    works[count].times = 1;
    works[count].best = 1e18;
    return count++;
}

static double now(void) {
    struct timespec t;
    clock_gettime(CLOCK_MONOTONIC, &t);
    return (double)t.tv_sec * 1e9 + (double)t.tv_nsec;
}

/* the first turns only find out how often a work is to run */
static void turn(size_t place) {
    double start = now();
    for (unsigned long i = 0; i < works[place].times; i++)
        works[place].run(works[place].with);
    double whole = now() - start, each = whole / (double)works[place].times;
    if (whole < TURN / 2)
        works[place].times *= 2;
    else if (each < works[place].best)
        works[place].best = each;
}

void time_works(void) {
    fprintf(stderr, "timing %zu works in turns, %d times round\n", count, ROUNDS);
    for (int round = 0; round < ROUNDS; round++)
        for (size_t place = 0; place < count; place++)
            turn(place);
}

double time_of(size_t place) { return works[place].best; }

void print_row(const char *part, const char *of, double number, const char *unit) {
    printf("%s\t%s\t%.2f\t%s\n", part, of, number, unit);
}

int main(void) {
    add_cipher_works();
    add_receive_works();
    time_works();
    print_cipher();
    print_receive();
    test_stack();
    return fflush(stdout) == 0 ? 0 : 1;
}
