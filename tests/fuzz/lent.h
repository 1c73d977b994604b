/* Buffers as a call is lent them: each at its exact length against a page that nobody may touch, with painted bytes at
 * its other end. So a byte read or written beyond the one end stops the program, and one written beyond the other is
 * seen in the paint. */
#ifndef FUZZ_LENT_H
#define FUZZ_LENT_H

#include <stddef.h>
#include <stdint.h>

enum role { IMAGE, FIRST, SECOND, THIRD, WRITTEN, REPORT, ROLES };

/* The forbidden page stands behind the buffer, or before it. The paint differs too, so no byte that is written hides in
 * both. */
enum side { PAGE_BEHIND, PAGE_BEFORE, SIDES };

/* Lends a buffer with these bytes in it, or with paint where that is a null pointer. */
uint8_t *lend(enum side side, enum role role, const uint8_t *bytes, size_t length);

/* Whether nothing of the buffer and beside it differs from what was lent but, at most, its first `length` bytes. */
int changed_only(enum role role, size_t length);

/* The bytes that the buffer was lent with. */
const uint8_t *as_lent(enum role role);

#endif
