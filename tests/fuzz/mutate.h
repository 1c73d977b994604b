/* Changed inputs for our own loop. */
#ifndef FUZZ_MUTATE_H
#define FUZZ_MUTATE_H

#include <stddef.h>
#include <stdint.h>

#include "input.h"

enum { INPUTS_MOST = 8192 };

struct bytes {
    size_t length;
    uint8_t bytes[INPUT_MOST];
};

/* Where the random numbers begin. */
void set_seed(uint64_t seed);

/* Reads the words that are put into inputs, one to a line in quotation marks; gives 0 where the file cannot be read. */
int read_words(const char *name);

/* One of the inputs, changed in one to eight ways. */
void mutate(struct bytes *input, const struct bytes *inputs, size_t count);

#endif
