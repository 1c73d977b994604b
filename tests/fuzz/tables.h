/* The tables that inputs start from, made by the card's own calls: two cards load each other and exchange messages. */
#ifndef FUZZ_TABLES_H
#define FUZZ_TABLES_H

#include <stddef.h>
#include <stdint.h>

#include "../../host/khlongsit.h"
#include "input.h"

/* Our identity, a partner with a single key, and one with a pair. */
#define OWN "HARBOR"
#define SINGLE "MILL"
#define PAIR "ABBEY"
#define TOP_NAME "TOP"

enum table {
    EMPTY,     /* no partner */
    IDLE,      /* both just loaded */
    WAITING,   /* one key is on its way to MILL, two to ABBEY */
    CONFIRMED, /* and confirmed */
    BROKEN,    /* or answered by an ESM */
    TAKEN,     /* one key taken from MILL, two from ABBEY */
    BOTH,      /* waiting, and keys taken */
    HOLES,     /* an empty slot before, between and behind them */
    SPENT,     /* both counts of MILL and of ABBEY at their end, ABBEY waiting */
    FULL,      /* 64 partners, MILL and ABBEY in the last two slots, as in BOTH */
    TABLES
};

struct image {
    size_t length;
    uint8_t bytes[KHL_IMAGE_MOST + 1]; /* one more, for an image that is too long */
};

/* Makes all of them. */
void make_tables(void);

/* The table that an input starts from, with its edits. */
void make_image(struct image *image, const struct input *input);

/* The record's body of a partner in an image that is legal; a null pointer where it has none. */
uint8_t *record_of(struct image *image, const uint8_t *identity, size_t length);

/* The card at a partner's end, which has just loaded us. */
void make_partner(struct image *theirs, const struct image *ours, const uint8_t *record);

/* A request for one key or two, with all that a KSM can have; two are notarized. */
void make_request(uint8_t *request, int keys);

#endif
