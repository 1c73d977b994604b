/* A good KSM received: of 232 bytes on tables of 1 to 64 partners, of every length on the smallest and on the full
 * table, and the longest with NOS on the full one. The originator has a pair and stands in the last slot in use. */
#include <stdint.h>
#include <stdio.h>
#include <stdlib.h>
#include <string.h>

#include "../tests/face/cards.h"
#include "clock.h"

#define LONG_OWN "ABCDEFGHIJKLMNOP"
#define LONG_PARTNER "PONMLKJIHGFEDCBA"

enum { SIZES = 7, SHAPES = 6 };

/* what a KSM has: how long its names are, its keys and their flags, and whether it has IV and date, and NOS */
static const struct shape {
    int long_names, keys;
    uint8_t flags;
    int iv_and_date;
    uint32_t count;
    int notarized;
} shapes[SHAPES] = {{0, 1, 0, 0, 1, 0},        {1, 1, 0, 0, 1, 0},        {1, 1, 7, 0, 99999998, 0},
                    {1, 2, 0, 1, 99999998, 0}, {1, 2, 2, 1, 99999998, 0}, {1, 2, 7, 1, 99999998, 0}},
  with_nos = {1, 2, 7, 1, 99999998, 1};

static struct test {
    struct image image;
    uint8_t *record, fresh[KHL_RECORD];
    struct text text;
    int needed; /* cipher blocks that document 01 asks for */
    size_t place;
} by_partners[SIZES], by_length[2][SHAPES], notarized;

static uint8_t reply[KHL_ROOM], report[KHL_REPORT];

static uint32_t receive(struct test *test) {
    memcpy(test->record, test->fresh, KHL_RECORD);
    return khl_receive(test->image.bytes, test->image.length, (const uint8_t *)test->text.bytes, test->text.length,
                       reply, sizeof reply, report);
}

static void receive_work(void *test) { receive(test); }

static const char *own(const struct shape *shape) { return shape->long_names ? LONG_OWN : "H"; }
static const char *partner(const struct shape *shape) { return shape->long_names ? LONG_PARTNER : "M"; }

/* the originator's card writes the KSM */
static void write_ksm(struct text *text, const struct shape *shape) {
    static struct image theirs;
    uint8_t request[KHL_REQUEST] = {0};
    make_card(&theirs, partner(shape));
    uint8_t *record = add_partner(&theirs, own(shape), PAIR);
    khl_put_name(record + KHL_RECORD_NAME, LONG_OWN);
    put_sending(record, shape->count, shape->count == 1 ? KHL_PHASE_IDLE : KHL_PHASE_BROKEN, 0);
    khl_request_put_count(request, shape->keys);
    for (int i = 0; i < shape->keys; i++)
        put_asked(request, i, i == 0 ? 0x133457799BBCDFF1 : 0x0E329232EA6D0D73, shape->flags, LONG_PARTNER);
    if (shape->iv_and_date) {
        put_iv(request, KHL_IV_ENCIPHERED, 0);
        put_date(request, "840229235959");
    }
    khl_request_put_notarized(request, shape->notarized);
    const char *us = own(shape);
    if (khl_build_ksm(theirs.bytes, theirs.length, (const uint8_t *)us, strlen(us), request, sizeof request, reply,
                      sizeof reply, report) != KHL_DONE) {
        fprintf(stderr, "a KSM is not built\n");
        exit(1);
    }
    text->length = khl_report_length(report);
    memcpy(text->bytes, reply, text->length);
}

/* the blocks of a MAC over a message of that length: without `CSM(` and from `MAC/` on */
static int mac_blocks(size_t length) { return (int)(length - 4 - 15 + 7) / 8; }

/* so many partners, the originator the last */
static void make_test(struct test *test, int partners, const struct shape *shape) {
    make_card(&test->image, own(shape));
    for (int i = 1; i < partners; i++) {
        char identity[KHL_NAME];
        snprintf(identity, sizeof identity, "P%d", i);
        add_partner(&test->image, identity, PAIR);
    }
    test->record = add_partner(&test->image, partner(shape), PAIR);
    khl_put_name(test->record + KHL_RECORD_NAME, LONG_OWN);
    memcpy(test->fresh, test->record, KHL_RECORD);
    write_ksm(&test->text, shape);
    if (receive(test) != KHL_DONE) {
        fprintf(stderr, "a good KSM of %zu bytes is not taken\n", test->text.length);
        exit(1);
    }
    test->needed = 3 * shape->keys + shape->iv_and_date + 2 * shape->notarized + mac_blocks(test->text.length) +
                   mac_blocks(khl_report_length(report));
    test->place = add_work(receive_work, test);
}

void add_receive_works(void) {
    for (int i = 0; i < SIZES; i++)
        make_test(&by_partners[i], 1 << i, &shapes[SHAPES - 1]);
    for (int i = 0; i < SHAPES; i++) {
        make_test(&by_length[0][i], 1, &shapes[i]);
        make_test(&by_length[1][i], KHL_PARTNERS, &shapes[i]);
    }
    make_test(&notarized, KHL_PARTNERS, &with_nos);
}

/* a point of a curve: where it stands, and its height in blocks */
static void print_point(const char *curve, size_t at, double blocks) {
    char of[24];
    snprintf(of, sizeof of, "%zu", at);
    print_row(curve, of, blocks, "blocks");
}

static double blocks(const struct test *test) { return time_of(test->place) / block_time(); }

void print_receive(void) {
    const struct test *full = &by_partners[SIZES - 1];
    print_row("receive", "KSM of 232 bytes, 64 partners", blocks(full), "blocks");
    print_row("receive", "KSM of 232 bytes, 64 partners", time_of(full->place) / scheduled_time(),
              "blocks with schedule");
    print_row("receive", "KSM of 232 bytes, by document 01", full->needed, "blocks");
    print_row("receive", "KSM of 237 bytes with NOS, 64 partners", blocks(&notarized), "blocks");
    print_row("receive", "KSM of 237 bytes with NOS, by the papers", notarized.needed, "blocks");
    for (int i = 0; i < SIZES; i++)
        print_point("partners", (size_t)1 << i, blocks(&by_partners[i]));
    for (int i = 0; i < SHAPES; i++) {
        print_point("length, 64 partners", by_length[1][i].text.length, blocks(&by_length[1][i]));
        print_point("length, 1 partner", by_length[0][i].text.length, blocks(&by_length[0][i]));
        print_point("length, by document 01", by_length[0][i].text.length, by_length[0][i].needed);
    }
}
