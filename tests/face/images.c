/* Images that are not legal: each rule of document 01's list broken once, and every call refuses with 13 before all
 * else. */
#include <stdio.h>
#include <string.h>

#include "call.h"
#include "check.h"
#include "tests.h"

static const uint8_t key[8] = {0x01, 0x23, 0x45, 0x67, 0x89, 0xAB, 0xCD, 0xEF};

/* MILL has a pair, waits with two keys and has sent one; QUAY has a single key and is just loaded; ABBEY is broken */
static void make_harbor(struct image *image) {
    make_card(image, "HARBOR");
    uint8_t *mill = add_partner(image, "MILL", PAIR);
    put_sending(mill, 7, KHL_PHASE_WAITING, 2);
    put_expected(mill, 5);
    add_partner(image, "QUAY", SINGLE);
    put_sending(add_partner(image, "ABBEY", SINGLE), 3, KHL_PHASE_BROKEN, 0);
}

/* every call on that image, with good arguments and with bad ones */
static void every_call_refuses(const struct image *image) {
    static const char service_wanted[] = "CSM(MCL/RSI RCV/HARBOR ORG/ABBEY SVR/ )";
    struct image copy = *image, made;
    uint8_t request[KHL_REQUEST] = {1};
    for (int bad = 0; bad < 2; bad++) {
        const char *partner = bad ? "" : "ABBEY";
        size_t room = bad ? 0 : KHL_ROOM, image_room = bad ? 0 : KHL_IMAGE_MOST;
        answers(receive(&copy, service_wanted, bad ? 0 : sizeof service_wanted - 1, room), KHL_BAD_IMAGE);
        answers(build_ksm(&copy, partner, request, bad ? 0 : sizeof request, room), KHL_BAD_IMAGE);
        answers(give_up(&copy, partner), KHL_BAD_IMAGE);
        answers(build_rsi(&copy, partner, bad ? "?" : "KD", room), KHL_BAD_IMAGE);
        answers(ask(&copy, partner, room), KHL_BAD_IMAGE);
        answers(load(&copy, bad ? "" : "MOLE", bad ? "" : TOP_NAME, key, bad ? 0 : sizeof key, image_room, &made),
                KHL_BAD_IMAGE);
        answers(take_out(&copy, partner, image_room, &made), KHL_BAD_IMAGE);
    }
}

/* one byte of a partner's record changed */
static void broken_records(void) {
    enum { OUT = KHL_RECORD_OUTGOING, IN = KHL_RECORD_INCOMING };
    static const struct {
        const char *partner;
        size_t at;
        uint8_t value;
        const char *what;
    } cases[] = {
        {"MILL", KHL_RECORD_IDENTITY, ' ', "an identity that begins with a blank"},
        {"MILL", KHL_RECORD_IDENTITY + 1, 'i', "a small letter in an identity"},
        {"MILL", KHL_RECORD_IDENTITY + 15, 'X', "a blank inside an identity"},
        {"MILL", KHL_RECORD_NAME + 15, 0, "a key name filled with a zero"},
        {"MILL", KHL_RECORD_NAME, ' ', "a key name that begins with a blank"},
        {"MILL", KHL_RECORD_FORM, 0, "form 0"},
        {"MILL", KHL_RECORD_FORM, 1, "a single key with a second half"},
        {"MILL", KHL_RECORD_FORM, 3, "form 3"},
        {"QUAY", KHL_RECORD_FORM, 0, "form 0 and no second half"},
        {"QUAY", KHL_RECORD_FORM, 3, "form 3 and no second half"},
        {"QUAY", KHL_RECORD_FORM, 2, "a pair whose right half is even"},
        {"QUAY", KHL_RECORD_TOP + 15, 1, "a byte in a single key's second half"},
        {"MILL", KHL_RECORD_TOP, 0, "an even byte in the left half"},
        {"MILL", KHL_RECORD_TOP + 15, 0, "an even byte in the right half"},
        {"QUAY", KHL_RECORD_NEXT + 3, 0, "next send 0"},
        {"QUAY", KHL_RECORD_NEXT + 3, 2, "next send 2 in phase 0"},
        {"MILL", KHL_RECORD_NEXT, 6, "next send above the last count"},
        {"MILL", KHL_RECORD_EXPECTED, 6, "expected above the last count"},
        {"QUAY", KHL_RECORD_EXPECTED + 3, 0, "expected 0"},
        {"QUAY", KHL_RECORD_EXPECTED + 3, 2, "expected 2 without incoming keys"},
        {"MILL", KHL_RECORD_EXPECTED + 3, 1, "incoming keys with expected 1"},
        {"MILL", KHL_RECORD_PHASE, 0, "phase 0 with next send 7"},
        {"MILL", KHL_RECORD_PHASE, 3, "phase 3 with outgoing keys"},
        {"MILL", KHL_RECORD_PHASE, 4, "phase 4"},
        {"QUAY", KHL_RECORD_PHASE, 3, "phase 3 with next send 1"},
        {"ABBEY", KHL_RECORD_PHASE, 4, "phase 4 without outgoing keys"},
        {"ABBEY", KHL_RECORD_PHASE, 1, "phase 1 without outgoing keys"},
        {"ABBEY", KHL_RECORD_PHASE, 2, "phase 2 without outgoing keys"},
        {"MILL", OUT + KHL_SET_COUNT, 0, "phase 1 with no outgoing keys counted"},
        {"MILL", OUT + KHL_SET_COUNT, 1, "one outgoing key counted, two there"},
        {"MILL", OUT + KHL_SET_COUNT, 3, "three outgoing keys"},
        {"MILL", OUT + KHL_SET_FIRST + KHL_PLACE_NAME, 's', "a small letter in a data key's name"},
        {"MILL", OUT + KHL_SET_SECOND + KHL_PLACE_NAME, 0, "a missing name with a zero"},
        {"MILL", OUT + KHL_SET_SECOND + KHL_PLACE_NAME + 1, 'X', "a missing name with a letter in it"},
        {"MILL", IN + KHL_SET_COUNT, 0, "expected 5 with no incoming keys counted"},
        {"MILL", IN + KHL_SET_COUNT, 2, "two incoming keys counted, one there"},
        {"MILL", IN + KHL_SET_SECOND, 1, "a byte in an unused key place"},
        {"MILL", IN + KHL_SET_SECOND + KHL_PLACE_NAME + 15, ' ', "a blank in an unused key place"},
        {"QUAY", OUT + KHL_SET_SECOND, 1, "a byte in an unused key place of no keys"},
        {"ABBEY", IN + KHL_SET_COUNT, 1, "an incoming key with expected 1"},
        {"ABBEY", (size_t)-1, KHL_KIND_EMPTY, "a slot emptied, its body left"},
        {"ABBEY", (size_t)-1, KHL_KIND_OWN, "a slot of kind 1"},
        {"ABBEY", (size_t)-1, 3, "a slot of kind 3"},
    };
    for (size_t i = 0; i < sizeof cases / sizeof *cases; i++) {
        struct image image;
        make_harbor(&image);
        uint8_t *record = record_of(&image, cases[i].partner);
        size_t at = (size_t)(record - image.bytes) + cases[i].at;
        image.bytes[at] = cases[i].value;
        trying("an image with %s", cases[i].what);
        every_call_refuses(&image);
    }
}

/* bytes too many or too few, a front that is none, identities that do not differ */
static void broken_images(void) {
    struct image whole, image;
    make_harbor(&whole);
    for (size_t length = 0; length <= whole.length + 1; length += length < 20 || length > whole.length - 3 ? 1 : 61) {
        if (length == whole.length)
            continue;
        image = whole;
        image.length = length;
        trying("an image of %zu bytes, of which it has %zu", length, whole.length);
        every_call_refuses(&image);
    }
    image = whole;
    image.bytes[0] = KHL_KIND_PARTNER;
    trying("an image of kind 2");
    every_call_refuses(&image);
    image = whole;
    memset(image.bytes + KHL_IMAGE_OWN, ' ', KHL_NAME);
    trying("an image without an own identity");
    every_call_refuses(&image);
    image = whole;
    khl_put_name(record_of(&image, "QUAY"), "HARBOR");
    trying("a partner with our own identity");
    every_call_refuses(&image);
    image = whole;
    khl_put_name(record_of(&image, "QUAY"), "MILL");
    trying("two partners with one identity");
    every_call_refuses(&image);
}

/* a full table, with a byte more and less, and its first and last identities equal */
static void full_images(void) {
    struct image image;
    make_card(&image, "HARBOR");
    fill_table(&image);
    trying("a full image");
    answers(ask(&image, "P64", KHL_ROOM), KHL_DONE);
    for (size_t length = KHL_IMAGE_MOST - 1; length <= KHL_IMAGE_MOST + 1; length += 2) {
        image.length = length;
        trying("a full image of %zu bytes", length);
        every_call_refuses(&image);
    }
    image.length = KHL_IMAGE_MOST;
    khl_put_name(record_of(&image, "P64"), "P1");
    trying("a full image with the identity of the first partner in the last slot");
    every_call_refuses(&image);
}

/* what is legal though it may look odd */
static void odd_but_legal(void) {
    struct image image;
    make_harbor(&image);
    uint8_t *mill = record_of(&image, "MILL");
    put_top(mill, PAIR, LEFT, LEFT);
    put_next(mill, KHL_COUNT_LAST);
    put_expected(mill, KHL_COUNT_LAST);
    put_outgoing(mill, 2, 0, NULL, 0, NULL);
    put_incoming(mill, 2, 2, "ABCDEFGHIJKLMNOP", 2, "0");
    trying("equal halves, last counts, equal and even data keys");
    answers(ask(&image, "MILL", KHL_ROOM), KHL_DONE);
}

void test_images(void) {
    broken_records();
    broken_images();
    full_images();
    odd_but_legal();
}
