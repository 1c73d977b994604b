/* What is held to what. */
#ifndef FACE_CHECK_H
#define FACE_CHECK_H

#include <stddef.h>

/* Names what is being tried, for the words of a failure. */
void trying(const char *format, ...);

/* One thing that has to be so; a failure is printed with what was being tried. */
void holds(int so, const char *format, ...);

/* Two rows of bytes have to be equal; a failure prints where they first differ. */
void same(const char *what, const void *got, const void *wanted, size_t length);

/* How many things were held, and how many failed. */
unsigned long held(void);
unsigned long failed(void);

#endif
