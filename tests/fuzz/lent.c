#define _DEFAULT_SOURCE
#include "lent.h"

#include <stdio.h>
#include <stdlib.h>
#include <string.h>
#include <sys/mman.h>

/* room for the largest buffer and some paint; a whole number of pages, as the forbidden ones are */
enum { SPACE = 16384, PAINTED = 64 };

static struct {
    uint8_t *space;      /* SPACE bytes between two forbidden stretches */
    uint8_t *bytes;      /* the buffer */
    size_t length;       /* its length */
    uint8_t *from;       /* what is watched: the buffer and its paint */
    uint8_t copy[SPACE]; /* the watched bytes as they were lent */
} lent[ROLES];

static uint8_t *new_space(void) {
    uint8_t *pages = mmap(NULL, 3 * SPACE, PROT_NONE, MAP_PRIVATE | MAP_ANONYMOUS, -1, 0);
    if (pages == MAP_FAILED || mprotect(pages + SPACE, SPACE, PROT_READ | PROT_WRITE) != 0) {
        perror("memory for lent buffers");
        exit(2);
    }
    return pages + SPACE;
}

uint8_t *lend(enum side side, enum role role, const uint8_t *bytes, size_t length) {
    if (lent[role].space == NULL)
        lent[role].space = new_space();
    if (length > SPACE - PAINTED) {
        fprintf(stderr, "a buffer of %zu bytes is too long to be lent\n", length);
        exit(2);
    }
    lent[role].from = lent[role].space + (side == PAGE_BEHIND ? SPACE - PAINTED - length : 0);
    lent[role].bytes = lent[role].from + (side == PAGE_BEHIND ? PAINTED : 0);
    lent[role].length = length;
    for (size_t i = 0; i < length + PAINTED; i++)
        lent[role].from[i] = (uint8_t)((i * 167 + i / 251) ^ (side == PAGE_BEHIND ? 0x5A : 0xA5));
    if (bytes != NULL)
        memcpy(lent[role].bytes, bytes, length);
    memcpy(lent[role].copy, lent[role].from, length + PAINTED);
    return lent[role].bytes;
}

int changed_only(enum role role, size_t length) {
    size_t start = (size_t)(lent[role].bytes - lent[role].from), end = start + length,
           all = lent[role].length + PAINTED;
    return length <= lent[role].length && memcmp(lent[role].from, lent[role].copy, start) == 0 &&
           memcmp(lent[role].from + end, lent[role].copy + end, all - end) == 0;
}

const uint8_t *as_lent(enum role role) { return lent[role].copy + (lent[role].bytes - lent[role].from); }
