#include "tables.h"

#include <stdio.h>
#include <string.h>

#include "must.h"

#define TEXT(words) (const uint8_t *)(words), strlen(words)
#define NAME(name) (name), khl_name_length(name)

static const uint8_t top[16] = {0x01, 0x23, 0x45, 0x67, 0x89, 0xAB, 0xCD, 0xEF,
                                0xFE, 0xDC, 0xBA, 0x98, 0x76, 0x54, 0x32, 0x10};
static struct image tables[TABLES];

static uint8_t report[KHL_REPORT], reply[KHL_ROOM];
static size_t told_length(void) { return khl_report_length(report); }

/* ---- the card's calls where they have to succeed */

static void start(struct image *image, const uint8_t *own, size_t length) {
    must(khl_start(own, length, image->bytes, KHL_IMAGE_MOST, report) == KHL_DONE, "start is refused");
    image->length = told_length();
}

static void load(struct image *image, const uint8_t *partner, size_t length, const uint8_t *name, size_t name_length,
                 const uint8_t *key, size_t bytes) {
    static struct image before;
    before = *image;
    must(khl_load(before.bytes, before.length, partner, length, name, name_length, key, bytes, image->bytes,
                  KHL_IMAGE_MOST, report) == KHL_DONE,
         "load is refused");
    image->length = told_length();
}

static void take_out(struct image *image, const char *partner) {
    static struct image before;
    before = *image;
    must(khl_remove(before.bytes, before.length, TEXT(partner), image->bytes, KHL_IMAGE_MOST, report) == KHL_DONE,
         "remove is refused");
    image->length = told_length();
}

/* gives the length of the message, which stands in the reply */
static size_t build(struct image *image, const char *partner, int keys) {
    uint8_t request[KHL_REQUEST];
    make_request(request, keys);
    must(khl_build_ksm(image->bytes, image->length, TEXT(partner), request, sizeof request, reply, sizeof reply,
                       report) == KHL_DONE,
         "build is refused");
    return told_length();
}

/* gives the length of the reply */
static size_t receive(struct image *image, const void *text, size_t length, uint32_t answer) {
    uint8_t lent[KHL_TEXT_MOST];
    memcpy(lent, text, length);
    must(khl_receive(image->bytes, image->length, lent, length, reply, sizeof reply, report) == answer,
         "receive does not answer %u", (unsigned)answer);
    return told_length();
}

/* ---- exchanges with a partner */

static struct image partner_of(struct image *ours, const char *partner) {
    struct image theirs;
    make_partner(&theirs, ours, record_of(ours, TEXT(partner)));
    return theirs;
}

static void wait_for(struct image *ours, const char *partner, int keys) { build(ours, partner, keys); }

static void confirm(struct image *ours, const char *partner, int keys) {
    struct image theirs = partner_of(ours, partner);
    size_t length = receive(&theirs, reply, build(ours, partner, keys), KHL_DONE);
    receive(ours, reply, length, KHL_DONE);
}

/* the line turns a digit of the MAC, and the ESM that answers comes back */
static void break_off(struct image *ours, const char *partner, int keys) {
    struct image theirs = partner_of(ours, partner);
    size_t length = build(ours, partner, keys);
    reply[length - 3] = reply[length - 3] == '0' ? '1' : '0';
    length = receive(&theirs, reply, length, KHL_ERROR);
    receive(ours, reply, length, KHL_DONE);
}

/* an ESM's count sets a waiting card's send count; the exchange is broken then */
static void raise(struct image *ours, const char *own, const char *partner, uint32_t count) {
    char text[KHL_TEXT_MOST];
    build(ours, partner, 1);
    int length =
        snprintf(text, sizeof text, "CSM(MCL/ESM RCV/%s ORG/%s CTP/%u CTR/1 ERF/P )", own, partner, (unsigned)count);
    receive(ours, text, (size_t)length, KHL_DONE);
}

static void take(struct image *ours, const char *partner, int keys) {
    struct image theirs = partner_of(ours, partner);
    receive(ours, reply, build(&theirs, OWN, keys), KHL_DONE);
}

/* expected is then the last count */
static void take_last(struct image *ours, const char *partner) {
    struct image theirs = partner_of(ours, partner);
    raise(&theirs, partner, OWN, KHL_COUNT_LAST - 1);
    receive(ours, reply, build(&theirs, OWN, 2), KHL_DONE);
}

/* ---- the tables */

static void load_both(struct image *image) {
    load(image, TEXT(SINGLE), TEXT(TOP_NAME), top, 8);
    load(image, TEXT(PAIR), TEXT(TOP_NAME), top, 16);
}

static void with_both(struct image *image, void (*does)(struct image *, const char *, int)) {
    does(image, SINGLE, 1);
    does(image, PAIR, 2);
}

/* slots 1, 3 and 5 are empty again */
static void make_holes(struct image *image) {
    static const char *const others[] = {"P1", "P2", "P3"};
    load(image, TEXT(others[0]), TEXT(TOP_NAME), top, 8);
    load(image, TEXT(SINGLE), TEXT(TOP_NAME), top, 8);
    load(image, TEXT(others[1]), TEXT(TOP_NAME), top, 8);
    load(image, TEXT(PAIR), TEXT(TOP_NAME), top, 16);
    load(image, TEXT(others[2]), TEXT(TOP_NAME), top, 8);
    for (int i = 0; i < 3; i++)
        take_out(image, others[i]);
}

static void make_full(struct image *image) {
    char identity[KHL_NAME];
    for (int i = 1; i <= KHL_PARTNERS - 2; i++) {
        snprintf(identity, sizeof identity, "P%d", i);
        load(image, TEXT(identity), TEXT(TOP_NAME), top, i % 2 == 0 ? 8 : 16);
    }
    load_both(image);
}

void make_tables(void) {
    trying("making the tables");
    for (int i = 0; i < TABLES; i++) {
        start(&tables[i], TEXT(OWN));
        if (i == HOLES)
            make_holes(&tables[i]);
        else if (i == FULL)
            make_full(&tables[i]);
        else if (i != EMPTY)
            load_both(&tables[i]);
    }
    with_both(&tables[CONFIRMED], confirm);
    with_both(&tables[BROKEN], break_off);
    with_both(&tables[TAKEN], take);
    with_both(&tables[BOTH], take);
    with_both(&tables[FULL], take);
    with_both(&tables[WAITING], wait_for);
    with_both(&tables[BOTH], wait_for);
    with_both(&tables[FULL], wait_for);
    take_last(&tables[SPENT], SINGLE);
    take_last(&tables[SPENT], PAIR);
    raise(&tables[SPENT], OWN, SINGLE, KHL_COUNT_LAST);
    raise(&tables[SPENT], OWN, PAIR, KHL_COUNT_LAST - 1);
    build(&tables[SPENT], PAIR, 2);
}

/* ---- what inputs make of them */

/* The place of a slot's record, its kind first; 0 for our own. */
static size_t place_of(const struct image *image, unsigned slot) {
    size_t at = KHL_IMAGE_SLOTS;
    if (slot >= 128)
        return 0;
    for (slot %= KHL_PARTNERS; slot > 0; slot--)
        at += image->bytes[at] == KHL_KIND_PARTNER ? 1 + KHL_RECORD : 1;
    return at;
}

/* Edits find their slots in the table as it was, so that one does not move the next. */
void make_image(struct image *image, const struct input *input) {
    const struct image *table = &tables[input->table % TABLES];
    *image = *table;
    for (size_t i = 0; i < input->edits.length; i += EDIT) {
        const uint8_t *edit = input->edits.bytes + i;
        size_t at = place_of(table, edit[0]);
        size_t bytes = at == 0 ? KHL_IMAGE_SLOTS : table->bytes[at] == KHL_KIND_PARTNER ? 1 + KHL_RECORD : 1;
        image->bytes[at + edit[1] % bytes] = edit[2];
    }
    image->length = (size_t)((ptrdiff_t)image->length + input->longer);
}

uint8_t *record_of(struct image *image, const uint8_t *identity, size_t length) {
    uint8_t wanted[KHL_NAME];
    if (length > KHL_NAME)
        return NULL;
    memset(wanted, ' ', sizeof wanted);
    memcpy(wanted, identity, length);
    for (unsigned slot = 0; slot < KHL_PARTNERS; slot++) {
        uint8_t *kind = image->bytes + place_of(image, slot);
        if (*kind == KHL_KIND_PARTNER && memcmp(khl_record_identity(kind + 1), wanted, sizeof wanted) == 0)
            return kind + 1;
    }
    return NULL;
}

void make_partner(struct image *theirs, const struct image *ours, const uint8_t *record) {
    start(theirs, NAME(khl_record_identity(record)));
    load(theirs, NAME(khl_image_own(ours->bytes)), NAME(khl_record_name(record)), khl_record_top(record),
         (size_t)KHL_KEY * khl_record_form(record));
}

void make_request(uint8_t *request, int keys) {
    static const uint64_t values[] = {0x133457799BBCDFF1, 0x0E329232EA6D0D73};
    memset(request, 0, KHL_REQUEST);
    khl_request_put_count(request, keys);
    for (int i = 0; i < keys; i++) {
        khl_put_number(khl_request_key(request, i), KHL_KEY, values[i]);
        khl_request_put_flags(request, i, KHL_FLAG_P | KHL_FLAG_IDK1 | KHL_FLAG_IDK2);
        khl_put_name(khl_request_name(request, i), i == 0 ? "AUTHENTICATES" : "ENCIPHERS");
    }
    khl_request_put_iv_kind(request, KHL_IV_ENCIPHERED);
    khl_put_number(khl_request_iv(request), KHL_KEY, 0x1234567890ABCDEF);
    khl_request_put_dated(request, 1);
    memcpy(khl_request_date(request), "840229235959", KHL_DATE);
    khl_request_put_notarized(request, keys == 2);
}
