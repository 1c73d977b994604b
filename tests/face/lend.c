#define _DEFAULT_SOURCE
#include "lend.h"

#include <signal.h>
#include <stdio.h>
#include <stdlib.h>
#include <string.h>
#include <sys/mman.h>
#include <unistd.h>

/* room for the largest image and some paint; a whole number of pages */
enum { ROOM = 16384 };

static struct {
    uint8_t *room;      /* ROOM bytes between two pages without access */
    uint8_t *buffer;    /* the lent buffer in it */
    uint8_t copy[ROOM]; /* the room as it was lent */
} lent[ROLES];
static uint8_t paint[ROOM];
static enum side where;

/* what was touched is not known here, only that the test is over */
static void touched(int number) {
    static const char words[] = "FAILED  a byte outside a lent buffer was touched\n";
    (void)number;
    if (write(STDERR_FILENO, words, sizeof words - 1) < 0)
        _exit(2);
    _exit(1);
}

static uint8_t *guarded_room(void) {
    size_t page = ROOM;
    uint8_t *pages = mmap(NULL, ROOM + 2 * page, PROT_NONE, MAP_PRIVATE | MAP_ANONYMOUS, -1, 0);
    if (pages == MAP_FAILED || mprotect(pages + page, ROOM, PROT_READ | PROT_WRITE) != 0) {
        perror("mmap");
        exit(2);
    }
    return pages + page;
}

/* the paint differs from place to place and from side to side, so no value that is written hides in it on both */
void lend_at(enum side side) {
    where = side;
    for (size_t i = 0; i < ROOM; i++)
        paint[i] = (uint8_t)((i * 167 + i / 251) ^ (side == BEFORE_A_PAGE ? 0x5A : 0xA5));
    signal(SIGSEGV, touched);
    signal(SIGBUS, touched);
}

uint8_t *lend(enum role role, const void *bytes, size_t length) {
    if (lent[role].room == NULL)
        lent[role].room = guarded_room();
    memcpy(lent[role].room, paint, ROOM);
    lent[role].buffer = lent[role].room + (where == BEFORE_A_PAGE ? ROOM - length : 0);
    if (bytes != NULL)
        memcpy(lent[role].buffer, bytes, length);
    memcpy(lent[role].copy, lent[role].room, ROOM);
    return lent[role].buffer;
}

int changed_only(enum role role, size_t from, size_t length) {
    size_t start = (size_t)(lent[role].buffer - lent[role].room) + from, end = start + length;
    return memcmp(lent[role].room, lent[role].copy, start) == 0 &&
           memcmp(lent[role].room + end, lent[role].copy + end, ROOM - end) == 0;
}

const uint8_t *as_lent(enum role role) { return lent[role].copy + (lent[role].buffer - lent[role].room); }
