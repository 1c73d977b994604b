/* Start, load, remove, ask, give up. */
#include <stdio.h>
#include <string.h>

#include "call.h"
#include "check.h"
#include "tests.h"

static const uint8_t pair[] = {0x01, 0x23, 0x45, 0x67, 0x89, 0xAB, 0xCD, 0xEF,
                               0xFE, 0xDC, 0xBA, 0x98, 0x76, 0x54, 0x32, 0x10};
static const uint8_t even_left[] = {0x00, 0x23, 0x45, 0x67, 0x89, 0xAB, 0xCD, 0xEF,
                                    0xFE, 0xDC, 0xBA, 0x98, 0x76, 0x54, 0x32, 0x10};
static const uint8_t even_right[] = {0x01, 0x23, 0x45, 0x67, 0x89, 0xAB, 0xCD, 0xEF,
                                     0xFE, 0xDC, 0xBA, 0x98, 0x76, 0x54, 0x32, 0x11};

static const char *const bad_names[] = {
    "", " ", "mill", "MILL ", " MILL", "MI LL", "MILL.", "MILL-", "ABCDEFGHIJKLMNOPQ"};
enum { BAD_NAMES = sizeof bad_names / sizeof *bad_names };

static void is_image(const struct image *image, const struct image *wanted) {
    holds(image->length == wanted->length, "the image has %zu bytes, not %zu", image->length, wanted->length);
    if (image->length == wanted->length)
        same("the image", image->bytes, wanted->bytes, wanted->length);
}

static void starts(void) {
    struct image made, wanted;
    static const char *const good[] = {"M", "MILL", "0123456789ABCDEF"};
    for (size_t i = 0; i < 3; i++) {
        make_card(&wanted, good[i]);
        trying("start %s", good[i]);
        answers(start(good[i], KHL_IMAGE_MOST, &made), KHL_DONE);
        reports(0, KHL_IMAGE_LEAST, KHL_CLASS_NONE, KHL_SERVICE_NONE, NULL, NULL);
        is_image(&made, &wanted);
    }
    trying("start with more room");
    answers(start("MILL", KHL_IMAGE_MOST + 99, &made), KHL_DONE);
    trying("start with a byte of room too few");
    answers(start("MILL", KHL_IMAGE_MOST - 1, &made), KHL_NO_ROOM);
    answers(start("MILL", 0, &made), KHL_NO_ROOM);
    for (size_t i = 0; i < BAD_NAMES; i++) {
        trying("start '%s'", bad_names[i]);
        answers(start(bad_names[i], KHL_IMAGE_MOST, &made), KHL_BAD_IDENTITY);
    }
}

/* partners one after the other until the table is full, then one too many */
static void loads(void) {
    struct image image, wanted, made;
    char identity[KHL_NAME];
    make_card(&image, "MILL");
    wanted = image;
    for (int i = 1; i <= KHL_PARTNERS; i++) {
        snprintf(identity, sizeof identity, "P%d", i);
        add_partner(&wanted, identity, i % 2 == 0 ? SINGLE : PAIR);
        trying("load %s", identity);
        answers(load(&image, identity, TOP_NAME, pair, i % 2 == 0 ? 8 : 16, KHL_IMAGE_MOST, &made), KHL_DONE);
        reports(0, wanted.length, KHL_CLASS_NONE, KHL_SERVICE_NONE, NULL, NULL);
        is_image(&made, &wanted);
        image = made;
    }
    holds(image.length == KHL_IMAGE_MOST, "a full image has %zu bytes", image.length);
    trying("load a 65th");
    answers(load(&image, "P65", TOP_NAME, pair, 16, KHL_IMAGE_MOST, &made), KHL_TABLE_FULL);
    trying("load one that a full table has");
    answers(load(&image, "P64", TOP_NAME, pair, 16, KHL_IMAGE_MOST, &made), KHL_BAD_IDENTITY);
}

static void refused_loads(void) {
    struct image image, made;
    uint8_t key[17] = {0};
    make_card(&image, "MILL");
    add_partner(&image, "HARBOR", SINGLE);
    trying("load our own identity");
    answers(load(&image, "MILL", TOP_NAME, pair, 8, KHL_IMAGE_MOST, &made), KHL_BAD_IDENTITY);
    trying("load a taken identity");
    answers(load(&image, "HARBOR", TOP_NAME, pair, 8, KHL_IMAGE_MOST, &made), KHL_BAD_IDENTITY);
    trying("load with a byte of room too few");
    answers(load(&image, "QUAY", TOP_NAME, pair, 8, KHL_IMAGE_MOST - 1, &made), KHL_NO_ROOM);
    trying("load a pair whose left half is even");
    answers(load(&image, "QUAY", TOP_NAME, even_left, 16, KHL_IMAGE_MOST, &made), KHL_BAD_PARITY);
    answers(load(&image, "QUAY", TOP_NAME, even_left, 8, KHL_IMAGE_MOST, &made), KHL_BAD_PARITY);
    trying("load a pair whose right half is even");
    answers(load(&image, "QUAY", TOP_NAME, even_right, 16, KHL_IMAGE_MOST, &made), KHL_BAD_PARITY);
    for (size_t bytes = 0; bytes <= sizeof key; bytes++) {
        trying("load an even key of %zu bytes", bytes);
        answers(load(&image, "QUAY", TOP_NAME, key, bytes, KHL_IMAGE_MOST, &made),
                bytes == 8 || bytes == 16 ? KHL_BAD_PARITY : KHL_BAD_REQUEST);
    }
    for (size_t i = 0; i < BAD_NAMES; i++) {
        trying("load '%s'", bad_names[i]);
        answers(load(&image, bad_names[i], TOP_NAME, pair, 8, KHL_IMAGE_MOST, &made), KHL_BAD_IDENTITY);
        trying("load under the key name '%s'", bad_names[i]);
        answers(load(&image, "QUAY", bad_names[i], pair, 8, KHL_IMAGE_MOST, &made), KHL_BAD_REQUEST);
    }
    memcpy(key, pair, 8);
    memcpy(key + 8, pair, 8);
    trying("load a pair of equal halves");
    answers(load(&image, "QUAY", TOP_NAME, key, 16, KHL_IMAGE_MOST, &made), KHL_DONE);
}

/* the slot of a removed partner is the lowest free one; others stay where they are */
static void removes(void) {
    struct image image, wanted, made;
    make_card(&image, "MILL");
    fill_table(&image);
    for (int phase = KHL_PHASE_IDLE; phase <= KHL_PHASE_BROKEN; phase++) {
        uint8_t *record = record_of(&image, phase % 2 == 0 ? "P1" : "P64");
        put_sending(record, phase == 0 ? 1 : 9, (enum khl_phase)phase, phase == 1 || phase == 2 ? 2 : 0);
        wanted = image;
        record = record_of(&wanted, phase % 2 == 0 ? "P1" : "P64");
        size_t at = (size_t)(record - wanted.bytes) - 1;
        wanted.bytes[at] = KHL_KIND_EMPTY;
        memmove(record, record + KHL_RECORD, wanted.length - at - 1 - KHL_RECORD);
        wanted.length -= KHL_RECORD;
        trying("remove a partner in phase %d", phase);
        answers(take_out(&image, phase % 2 == 0 ? "P1" : "P64", KHL_IMAGE_MOST, &made), KHL_DONE);
        reports(0, wanted.length, KHL_CLASS_NONE, KHL_SERVICE_NONE, NULL, NULL);
        is_image(&made, &wanted);
        trying("remove it twice");
        answers(take_out(&made, phase % 2 == 0 ? "P1" : "P64", KHL_IMAGE_MOST, &made), KHL_NO_PARTNER);
    }
    trying("load into the slot that was freed");
    answers(take_out(&image, "P7", KHL_IMAGE_MOST, &made), KHL_DONE);
    image = made;
    answers(load(&image, "QUAY", TOP_NAME, pair, 16, KHL_IMAGE_MOST, &made), KHL_DONE);
    holds(record_of(&made, "QUAY") == khl_image_record(made.bytes, 6), "not the lowest free slot");
    trying("remove with a byte of room too few");
    answers(take_out(&image, "P1", KHL_IMAGE_MOST - 1, &made), KHL_NO_ROOM);
}

static void asks(void) {
    struct image image;
    make_card(&image, "MILL");
    fill_table(&image);
    put_sending(record_of(&image, "P2"), 77, KHL_PHASE_WAITING, 2);
    put_expected(record_of(&image, "P2"), 88);
    for (int i = 0; i < 3; i++) {
        static const char *const partners[] = {"P1", "P2", "P64"};
        trying("ask for %s", partners[i]);
        answers(ask(&image, partners[i], KHL_ROOM), KHL_DONE);
        reports(0, KHL_RECORD, KHL_CLASS_NONE, KHL_SERVICE_NONE, NULL, NULL);
        replies((const char *)record_of(&image, partners[i]), KHL_RECORD);
    }
    trying("ask with a room of 255, of which 156 would do");
    answers(ask(&image, "P1", KHL_ROOM - 1), KHL_NO_ROOM);
    for (size_t i = 0; i < BAD_NAMES; i++) {
        trying("ask for '%s'", bad_names[i]);
        answers(ask(&image, bad_names[i], KHL_ROOM), KHL_NO_PARTNER);
    }
    trying("ask for our own identity");
    answers(ask(&image, "MILL", KHL_ROOM), KHL_NO_PARTNER);
}

static void gives_up(void) {
    for (int phase = KHL_PHASE_IDLE; phase <= KHL_PHASE_BROKEN; phase++) {
        struct image image, wanted;
        make_card(&image, "MILL");
        uint8_t *record = add_partner(&image, "HARBOR", PAIR);
        put_sending(record, phase == 0 ? 1 : 9, (enum khl_phase)phase, phase == 1 || phase == 2 ? 2 : 0);
        put_expected(record, 4);
        wanted = image;
        if (phase == KHL_PHASE_WAITING)
            put_sending(record_of(&wanted, "HARBOR"), 9, KHL_PHASE_BROKEN, 0);
        trying("give up in phase %d", phase);
        answers(give_up(&image, "HARBOR"), phase == KHL_PHASE_WAITING ? KHL_DONE : KHL_NONE_WAITING);
        reports(0, 0, KHL_CLASS_NONE, KHL_SERVICE_NONE, NULL, NULL);
        is_image(&image, &wanted);
        trying("give up on a stranger");
        answers(give_up(&image, "HARBOUR"), KHL_NO_PARTNER);
    }
}

/* identities are handed over bare: filled with blanks they are nobody's */
static void filled_identities(void) {
    static const char *const filled[] = {"HARBOR ", "HARBOR          ", "                "};
    uint8_t request[KHL_REQUEST] = {1};
    for (size_t i = 0; i < 3; i++) {
        struct image image, made;
        make_card(&image, "MILL");
        put_sending(add_partner(&image, "HARBOR", PAIR), 9, KHL_PHASE_WAITING, 1);
        trying("the identity '%s'", filled[i]);
        answers(ask(&image, filled[i], KHL_ROOM), KHL_NO_PARTNER);
        answers(build_ksm(&image, filled[i], request, sizeof request, KHL_ROOM), KHL_NO_PARTNER);
        answers(build_rsi(&image, filled[i], "KD", KHL_ROOM), KHL_NO_PARTNER);
        answers(give_up(&image, filled[i]), KHL_NO_PARTNER);
        answers(take_out(&image, filled[i], KHL_IMAGE_MOST, &made), KHL_NO_PARTNER);
        answers(load(&image, filled[i], TOP_NAME, pair, 8, KHL_IMAGE_MOST, &made), KHL_BAD_IDENTITY);
    }
}

void test_custody(void) {
    starts();
    loads();
    refused_loads();
    removes();
    asks();
    gives_up();
    filled_identities();
}
