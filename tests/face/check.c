#include "check.h"

#include <stdarg.h>
#include <stdint.h>
#include <stdio.h>
#include <string.h>

static char subject[160];
static unsigned long all, bad;

void trying(const char *format, ...) {
    va_list values;
    va_start(values, format);
    vsnprintf(subject, sizeof subject, format, values);
    va_end(values);
}

void holds(int so, const char *format, ...) {
    va_list values;
    all++;
    if (so)
        return;
    bad++;
    printf("FAILED  %s: ", subject);
    va_start(values, format);
    vprintf(format, values);
    va_end(values);
    putchar('\n');
}

void same(const char *what, const void *got, const void *wanted, size_t length) {
    const uint8_t *left = got, *right = wanted;
    size_t at = 0;
    while (at < length && left[at] == right[at])
        at++;
    if (at == length)
        holds(1, "%s", what);
    else
        holds(0, "%s: byte %zu is %02X, not %02X", what, at, left[at], right[at]);
}

unsigned long held(void) { return all; }
unsigned long failed(void) { return bad; }
