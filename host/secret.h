/* Keys typed on standard input. */
#ifndef HOST_SECRET_H
#define HOST_SECRET_H

#include <stddef.h>
#include <stdint.h>

/* Reads the next line of standard input as hex digits; `length` is the number of bytes, 0 where the line is missing, is
 * longer or is not hex. At a terminal it asks for `what` and shows nothing of what is typed. Gives DONE, or complains
 * and gives FAILED where the terminal does not hide what is typed, of which nothing is read then, or reading fails. */
int read_secret(const char *what, uint8_t *bytes, size_t most, size_t *length);

#endif
