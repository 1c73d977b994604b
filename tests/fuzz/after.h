/* What holds after a call by what it did: what it changed is read back with ask, and the partner's card takes its
 * messages. */
#ifndef FUZZ_AFTER_H
#define FUZZ_AFTER_H

#include "call.h"

void look_after(const struct outcome *outcome, const struct input *input, const struct image *before);

#endif
