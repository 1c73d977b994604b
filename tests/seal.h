/* Data keys as a KSM carries them, made from the papers' rules with the card's bare cipher: what the card's own are
 * held to. */
#ifndef TESTS_SEAL_H
#define TESTS_SEAL_H

#include <stddef.h>
#include <stdint.h>

#include "../host/khlongsit.h"

/* An identity, bare and not empty. */
struct identity {
    const void *characters;
    size_t length;
};

/* The ORG and RCV of a KSM with NOS. */
struct ends {
    struct identity org, rcv;
};

/* Eight characters of the identity repeated, from a place on. */
static inline uint64_t eight_of(struct identity identity, size_t from) {
    uint64_t number = 0;
    for (size_t i = from; i < from + 8; i++)
        number = number << 8 | ((const uint8_t *)identity.characters)[i % identity.length];
    return number;
}

/* Adds the notary seal of section 7.5 to a top key, to its left half and, of a pair, to its right. */
static inline void notarize(uint64_t *left, uint64_t *right, int pair, const struct ends *ends) {
    const uint64_t high = 0xFFFFFFFF00000000;
    uint64_t from = eight_of(ends->org, 0) << 1, to = eight_of(ends->rcv, 0) << 1;
    uint64_t seal_left = khl_test_encipher((pair ? *right : *left) ^ from, eight_of(ends->rcv, 8));
    uint64_t seal_right = khl_test_encipher(*left ^ to, eight_of(ends->org, 8));
    *left ^= pair ? seal_left : (seal_left & high) | (seal_right & ~high);
    *right ^= seal_right;
}

/* A data key under a record's top key as a KSM of that count carries it; the ends are null where it has no NOS. */
static inline uint64_t seal(const uint8_t *record, const struct ends *ends, uint64_t count, uint64_t key) {
    int pair = khl_record_form(record) == KHL_FORM_PAIR;
    uint64_t left = khl_number(khl_record_top(record), KHL_KEY);
    uint64_t right = khl_number(khl_record_top(record) + KHL_KEY, KHL_KEY);
    if (ends != NULL)
        notarize(&left, &right, pair, ends);
    uint64_t sealed = khl_test_encipher(left ^ count, key);
    return pair ? khl_test_encipher(left ^ count, khl_test_decipher(right ^ count, sealed)) : sealed;
}

#endif
