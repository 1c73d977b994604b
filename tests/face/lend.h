/* Buffers as a call is lent them: each stands alone between two pages that nobody may touch, at its exact length,
 * either right before the second page or right behind the first; the bytes beside it are painted. So a read or write
 * outside it ends the test, or is seen in the paint. */
#ifndef FACE_LEND_H
#define FACE_LEND_H

#include <stddef.h>
#include <stdint.h>

enum role { IMAGE, TEXT, PARTNER, NAME, KEY, REQUEST, SERVICE, REPLY, OUT, REPORT, ROLES };

/* Where the buffers stand from now on, and another paint. */
enum side { BEFORE_A_PAGE, BEHIND_A_PAGE };
void lend_at(enum side side);

/* Lends a buffer with these bytes in it, or with paint where there are none. */
uint8_t *lend(enum role role, const void *bytes, size_t length);

/* Whether nothing differs from what was lent but, at most, the first `length` bytes of the buffer from `from` on. */
int changed_only(enum role role, size_t from, size_t length);

/* The bytes that a buffer was lent with. */
const uint8_t *as_lent(enum role role);

#endif
