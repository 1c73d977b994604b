#include "cards.h"

#include <inttypes.h>
#include <stdarg.h>
#include <stdio.h>
#include <string.h>

#include "../seal.h"

void make_card(struct image *image, const char *own) {
    memset(image, 0, sizeof *image);
    image->length = KHL_IMAGE_LEAST;
    image->bytes[0] = KHL_KIND_OWN;
    khl_put_name(image->bytes + KHL_IMAGE_OWN, own);
}

uint8_t *add_partner(struct image *image, const char *identity, enum form form) {
    size_t at = KHL_IMAGE_SLOTS;
    while (image->bytes[at] == KHL_KIND_PARTNER)
        at += 1 + KHL_RECORD;
    uint8_t *record = image->bytes + at + 1;
    memmove(record + KHL_RECORD, record, image->length - at - 1);
    image->length += KHL_RECORD;
    image->bytes[at] = KHL_KIND_PARTNER;
    memset(record, 0, KHL_RECORD);
    khl_put_name(record + KHL_RECORD_IDENTITY, identity);
    khl_put_name(record + KHL_RECORD_NAME, TOP_NAME);
    put_top(record, form, LEFT, form == PAIR ? RIGHT : 0);
    put_next(record, 1);
    put_expected(record, 1);
    return record;
}

void fill_table(struct image *image) {
    char identity[KHL_NAME];
    for (int i = 1; image->length < KHL_IMAGE_MOST; i++) {
        snprintf(identity, sizeof identity, "P%d", i);
        add_partner(image, identity, i % 2 == 0 ? SINGLE : PAIR);
    }
}

uint8_t *record_of(struct image *image, const char *identity) {
    uint8_t wanted[KHL_NAME];
    khl_put_name(wanted, identity);
    for (int slot = 0; slot < KHL_PARTNERS; slot++) {
        const uint8_t *record = khl_image_record(image->bytes, slot);
        if (record != NULL && memcmp(khl_record_identity(record), wanted, KHL_NAME) == 0)
            return image->bytes + (record - image->bytes);
    }
    return NULL;
}

void put_top(uint8_t *record, enum form form, uint64_t left, uint64_t right) {
    record[KHL_RECORD_FORM] = (uint8_t)form;
    khl_put_number(record + KHL_RECORD_TOP, 8, left);
    khl_put_number(record + KHL_RECORD_TOP + 8, 8, right);
}

void put_next(uint8_t *record, uint32_t next) { khl_put_number(record + KHL_RECORD_NEXT, 4, next); }
void put_phase(uint8_t *record, int phase) { record[KHL_RECORD_PHASE] = (uint8_t)phase; }

static void put_set(uint8_t *set, int keys, uint64_t first, const char *first_name, uint64_t second,
                    const char *second_name) {
    memset(set, 0, KHL_SET);
    set[KHL_SET_COUNT] = (uint8_t)keys;
    if (keys > 0) {
        khl_put_number(set + KHL_SET_FIRST + KHL_PLACE_KEY, 8, first);
        khl_put_name(set + KHL_SET_FIRST + KHL_PLACE_NAME, first_name ? first_name : "");
    }
    if (keys > 1) {
        khl_put_number(set + KHL_SET_SECOND + KHL_PLACE_KEY, 8, second);
        khl_put_name(set + KHL_SET_SECOND + KHL_PLACE_NAME, second_name ? second_name : "");
    }
}

void put_outgoing(uint8_t *record, int keys, uint64_t first, const char *first_name, uint64_t second,
                  const char *second_name) {
    put_set(record + KHL_RECORD_OUTGOING, keys, first, first_name, second, second_name);
}

void put_incoming(uint8_t *record, int keys, uint64_t first, const char *first_name, uint64_t second,
                  const char *second_name) {
    put_set(record + KHL_RECORD_INCOMING, keys, first, first_name, second, second_name);
}

void put_sending(uint8_t *record, uint32_t next, enum khl_phase phase, int keys) {
    put_next(record, next);
    put_phase(record, phase);
    put_outgoing(record, keys, 0x1111111111111111, "SENT1", 0x2222222222222222, NULL);
}

void put_expected(uint8_t *record, uint32_t expected) {
    khl_put_number(record + KHL_RECORD_EXPECTED, 4, expected);
    put_incoming(record, expected > 1, 0x3333333333333333, "TAKEN1", 0, NULL);
}

void put_asked(uint8_t *request, int place, uint64_t key, unsigned flags, const char *name) {
    khl_put_number(khl_request_key(request, place), KHL_KEY, key);
    khl_request_put_flags(request, place, flags);
    khl_put_name(khl_request_name(request, place), name);
}

void put_iv(uint8_t *request, enum khl_iv_kind kind, uint64_t iv) {
    khl_request_put_iv_kind(request, kind);
    khl_put_number(khl_request_iv(request), KHL_KEY, iv);
}

void put_date(uint8_t *request, const char *date) {
    khl_request_put_dated(request, 1);
    memcpy(khl_request_date(request), date, KHL_DATE);
}

void begin(struct text *text, const char *class_word, const char *rcv, const char *org) {
    text->length = 0;
    text->rcv = text->org = NULL;
    add(text, "CSM(MCL/%s RCV/%s ORG/%s ", class_word, rcv, org);
}

void begin_ksm(struct text *text, const char *rcv, const char *org, int notarized) {
    begin(text, "KSM", rcv, org);
    if (!notarized)
        return;
    add(text, "NOS/ ");
    text->rcv = rcv;
    text->org = org;
}

void add(struct text *text, const char *format, ...) {
    va_list values;
    va_start(values, format);
    text->length += (size_t)vsnprintf(text->bytes + text->length, sizeof text->bytes - text->length, format, values);
    va_end(values);
}

void add_kd(struct text *text, const uint8_t *record, uint32_t count, uint64_t key, const char *subfields) {
    struct ends ends;
    if (text->org != NULL)
        ends = (struct ends){{text->org, strlen(text->org)}, {text->rcv, strlen(text->rcv)}};
    add(text, "KD/%016" PRIX64 "%s ", seal(record, text->org != NULL ? &ends : NULL, count, key), subfields);
}

void end_with_mac(struct text *text, uint64_t key, uint32_t turned) {
    uint32_t mac = khl_test_mac(key, (const uint8_t *)text->bytes + 4, text->length - 4) ^ turned;
    add(text, "MAC/%04X %04X )", (unsigned)(mac >> 16), (unsigned)(mac & 0xFFFF));
}
