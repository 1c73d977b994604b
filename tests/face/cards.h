/* Images made by hand from document 01's layout, and messages and keys from its rules: what the card's own are held to.
 */
#ifndef FACE_CARDS_H
#define FACE_CARDS_H

#include <stddef.h>
#include <stdint.h>

#include "../../host/khlongsit.h"

#define LEFT 0x0123456789ABCDEF
#define RIGHT 0xFEDCBA9876543210
#define TOP_NAME "TOP"

struct image {
    size_t length;
    uint8_t bytes[KHL_IMAGE_MOST + 1]; /* one more, for images that are too long */
};

enum form { SINGLE = 1, PAIR = 2 };

/* A card with no partners. */
void make_card(struct image *image, const char *own);

/* A partner, just loaded, in the lowest empty slot; gives its record. */
uint8_t *add_partner(struct image *image, const char *identity, enum form form);

/* Partners until all 64 slots are in use: P1, P2 and on. */
void fill_table(struct image *image);

/* A partner's record; null where there is none. */
uint8_t *record_of(struct image *image, const char *identity);

/* Sets parts of a record. */
void put_top(uint8_t *record, enum form form, uint64_t left, uint64_t right);
void put_next(uint8_t *record, uint32_t next);
void put_phase(uint8_t *record, int phase);

/* Sets the keys that were sent or taken, and their names; no name is a null pointer. */
void put_outgoing(uint8_t *record, int keys, uint64_t first, const char *first_name, uint64_t second,
                  const char *second_name);
void put_incoming(uint8_t *record, int keys, uint64_t first, const char *first_name, uint64_t second,
                  const char *second_name);

/* Sets the sending side of a record: with one or two keys waiting or confirmed. */
void put_sending(uint8_t *record, uint32_t next, enum khl_phase phase, int keys);

/* Sets the receiving side: with one key where something is expected. */
void put_expected(uint8_t *record, uint32_t expected);

/* Sets parts of a request: a key at place 0 or 1 with its flags and name, the IV with its kind, the date. */
void put_asked(uint8_t *request, int place, uint64_t key, unsigned flags, const char *name);
void put_iv(uint8_t *request, enum khl_iv_kind kind, uint64_t iv);
void put_date(uint8_t *request, const char *date);

/* A message that is being written; its ends where it has NOS, else null pointers. */
struct text {
    size_t length;
    char bytes[600];
    const char *rcv, *org;
};

void begin(struct text *text, const char *class_word, const char *rcv, const char *org);
void add(struct text *text, const char *format, ...);

/* Begins a KSM, with NOS where its keys are notarized. */
void begin_ksm(struct text *text, const char *rcv, const char *org, int notarized);

/* Adds a key sealed under a record's top key for a count, notarized where the text has NOS, and its subfields. */
void add_kd(struct text *text, const uint8_t *record, uint32_t count, uint64_t key, const char *subfields);

/* Adds the MAC under a key, with some of its bits turned, and the end. */
void end_with_mac(struct text *text, uint64_t key, uint32_t turned);

#endif
