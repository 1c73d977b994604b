/* One call on lent buffers, and what holds after every call. */
#ifndef FUZZ_CALL_H
#define FUZZ_CALL_H

#include "input.h"
#include "tables.h"

struct outcome {
    uint32_t answer;
    uint8_t report[KHL_REPORT];
    unsigned letters;     /* as reported */
    size_t length;        /* as reported */
    struct image image;   /* the image after the call */
    struct image written; /* the reply or the new image, at its reported length */
};

/* Makes the call on this image with these slices, once on either side of a forbidden page, holds what the header says
 * of every call, and that the two runs give the same. */
void make_call(struct outcome *outcome, const struct input *input, const struct image *image);

#endif
