#include "finish.h"

#include <string.h>

#include "../seal.h"

enum { COVERED = 4 }; /* a MAC begins behind `CSM(` */

struct text {
    uint8_t *bytes;
    size_t length;
};

/* where the contents of the next field of that tag begin, or the text's length */
static size_t contents_of(const struct text *text, const char *tag, size_t from) {
    size_t length = strlen(tag);
    for (size_t at = from; at + length <= text->length; at++)
        if (memcmp(text->bytes + at, tag, length) == 0)
            return at + length;
    return text->length;
}

static int digit(uint8_t byte) {
    return byte >= '0' && byte <= '9' ? byte - '0' : byte >= 'A' && byte <= 'F' ? byte - 'A' + 10 : -1;
}

/* whether so many hex digits stand there, and their number */
static int read_hex(const struct text *text, size_t at, size_t digits, uint64_t *number) {
    *number = 0;
    for (size_t i = at; i < at + digits; i++) {
        if (i >= text->length || digit(text->bytes[i]) < 0)
            return 0;
        *number = *number << 4 | (uint64_t)digit(text->bytes[i]);
    }
    return 1;
}

static void put_hex(struct text *text, size_t at, size_t digits, uint64_t number) {
    for (size_t i = digits; i > 0; i--, number >>= 4)
        text->bytes[at + i - 1] = (uint8_t) "0123456789ABCDEF"[number & 15];
}

static uint64_t read_count(const struct text *text) {
    uint64_t count = 0;
    for (size_t at = contents_of(text, " CTP/", 0); at < text->length && count < 100000000; at++) {
        if (text->bytes[at] < '0' || text->bytes[at] > '9')
            break;
        count = count * 10 + (uint64_t)(text->bytes[at] - '0');
    }
    return count;
}

/* the contents of the first field of that tag, up to its blank */
static struct identity identity_of(const struct text *text, const char *tag) {
    size_t from = contents_of(text, tag, 0), to = from;
    while (to < text->length && text->bytes[to] != ' ')
        to++;
    return (struct identity){text->bytes + from, to - from};
}

/* seals at most two keys; gives how many, their exclusive-or and the last */
static int seal_keys(struct text *text, const uint8_t *record, uint64_t *both, uint64_t *last) {
    struct ends ends = {identity_of(text, " ORG/"), identity_of(text, " RCV/")};
    int keys = 0, notarized = contents_of(text, " NOS/ ", 0) < text->length && ends.rcv.length > 0;
    for (size_t at = 0; keys < 2; keys++) {
        at = contents_of(text, " KD/", at);
        if (!read_hex(text, at, 16, last))
            break;
        *both ^= *last;
        put_hex(text, at, 16, seal(record, notarized ? &ends : NULL, read_count(text), *last));
    }
    return keys;
}

static uint64_t outgoing(const uint8_t *record) {
    const uint8_t *set = khl_record_outgoing(record);
    return khl_number(khl_set_key(set, 0), KHL_KEY) ^ khl_number(khl_set_key(set, 1), KHL_KEY);
}

void finish(uint8_t *bytes, size_t length, struct image *ours) {
    struct text text = {bytes, length};
    uint64_t mac_key = 0, last = 0, iv, digits;
    struct identity org = identity_of(&text, " ORG/");
    const uint8_t *record = record_of(ours, org.characters, org.length);
    if (record == NULL)
        return;
    if (seal_keys(&text, record, &mac_key, &last) == 0)
        mac_key = outgoing(record);
    size_t at = contents_of(&text, " IV/E", 0);
    if (read_hex(&text, at, 16, &iv))
        put_hex(&text, at, 16, khl_test_encipher(last, iv));
    at = contents_of(&text, " MAC/", COVERED);
    if (!read_hex(&text, at, 4, &digits) || !read_hex(&text, at + 5, 4, &digits))
        return;
    uint32_t mac = khl_test_mac(mac_key, bytes + COVERED, at - strlen("MAC/") - COVERED);
    put_hex(&text, at, 4, mac >> 16);
    put_hex(&text, at + 5, 4, mac & 0xFFFF);
}
