/* Puts a text right, as far as it has the fields for it: a mutated message would hardly ever have the MAC that it needs
 * to get past the card's first test of it. */
#ifndef FUZZ_FINISH_H
#define FUZZ_FINISH_H

#include <stddef.h>
#include <stdint.h>

#include "tables.h"

/* Takes the digits of each KD and of an IV marked E as clear, seals them as its originator would, notarized where the
 * text has NOS, and writes the MAC; that of a text without KD is made with our outgoing keys, as in an RSM. */
void finish(uint8_t *text, size_t length, struct image *ours);

#endif
