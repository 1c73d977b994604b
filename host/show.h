/* An entry on paper: never a key, at most its check value. */
#ifndef HOST_SHOW_H
#define HOST_SHOW_H

#include <stdint.h>

/* The heading of a list, and a partner's row in it. */
void show_heading(void);
void show_row(const uint8_t *record);

/* A partner's entry line by line, with the check values of its data keys. */
void show_entry(const uint8_t *record);

#endif
