/* What the line program says: its complaints on standard error, and lines on standard output. */
#ifndef HOST_SAY_H
#define HOST_SAY_H

#include <stddef.h>
#include <stdint.h>

/* The exit status: all done; refused by the card, or trouble with a file, and nothing is changed; the command was not
 * understood; the image is changed, but what the command had to say or to send could not be written. */
enum { DONE = 0, FAILED = 1, MISUSED = 2, CHANGED = 3 };

/* Prints one line of complaint and gives the status back. */
int complain(int status, const char *format, ...);

/* Says that the card refused, with its answer. */
int refused(const char *whom, uint32_t answer);

/* Writes a line of at most 256 bytes to standard output at once; gives whether all of it was written. */
int print_line(const void *line, size_t length);

/* Prints what a command did to an image, if its status says that it did. Gives the status back, or says that the image
 * is changed all the same and gives CHANGED. */
int tell_change(int status, const char *path, const char *format, ...);

#endif
