/* What an input says and what came of it, for people. */
#ifndef FUZZ_TELL_H
#define FUZZ_TELL_H

#include "call.h"

void tell_input(const struct input *input, const struct image *image);
void tell_outcome(const struct outcome *outcome, enum call call);

#endif
