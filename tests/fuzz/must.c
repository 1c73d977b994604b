#include "must.h"

#include <stdarg.h>
#include <stdio.h>
#include <stdlib.h>

static const char *subject = "nothing yet";

void trying(const char *what) { subject = what; }

void must(int so, const char *format, ...) {
    va_list values;
    if (so)
        return;
    fprintf(stderr, "FINDING  %s: ", subject);
    va_start(values, format);
    vfprintf(stderr, format, values);
    va_end(values);
    fputc('\n', stderr);
    abort();
}
