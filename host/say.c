#define _POSIX_C_SOURCE 200809L
#include "say.h"

#include <inttypes.h>
#include <stdarg.h>
#include <stdio.h>
#include <string.h>
#include <unistd.h>

#include "words.h"

enum { LINE_MOST = 256 };

int complain(int status, const char *format, ...) {
    va_list values;
    va_start(values, format);
    fputs("line: ", stderr);
    vfprintf(stderr, format, values);
    fputc('\n', stderr);
    va_end(values);
    return status;
}

int refused(const char *whom, uint32_t answer) {
    return complain(FAILED, "%s: refused, %" PRIu32 " %s", whom, answer, answer_words(answer));
}

/* without the C library's buffer, which would try a line again that was said not to be written */
int print_line(const void *line, size_t length) {
    char bytes[LINE_MOST + 1];
    if (length > LINE_MOST)
        return 0;
    memcpy(bytes, line, length);
    bytes[length++] = '\n';
    for (size_t at = 0; at < length;) {
        ssize_t step = write(STDOUT_FILENO, bytes + at, length - at);
        if (step <= 0)
            return 0;
        at += (size_t)step;
    }
    return 1;
}

int tell_change(int status, const char *path, const char *format, ...) {
    char words[LINE_MOST];
    va_list values;
    va_start(values, format);
    vsnprintf(words, sizeof words, format, values);
    va_end(values);
    if ((status != DONE && status != CHANGED) || print_line(words, strlen(words)))
        return status;
    return complain(CHANGED, "%s is changed, but this could not be printed: %s", path, words);
}
