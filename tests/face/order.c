/* The order of answers: each call with every combination of the conditions it tests; the first in its order is given.
 * What receive tests is in letters.c. */
#include <string.h>

#include "call.h"
#include "check.h"
#include "tests.h"

static const uint8_t good_key[8] = {0x01, 0x23, 0x45, 0x67, 0x89, 0xAB, 0xCD, 0xEF};

/* a row of conditions, one bit each in the call's order, and the answer wanted: the first that holds, or 0 */
static int has(unsigned conditions, const uint32_t *order, uint32_t answer) {
    for (int i = 0; order[i] != 0; i++)
        if (order[i] == answer)
            return conditions >> i & 1;
    return 0;
}

static uint32_t first_of(unsigned conditions, const uint32_t *order) {
    for (int i = 0; order[i] != 0; i++)
        if (conditions >> i & 1)
            return order[i];
    return KHL_DONE;
}

/* MILL and HARBOR, with the conditions that stand in an image */
static void make_image(struct image *image, unsigned conditions, const uint32_t *order) {
    int waits = has(conditions, order, KHL_WAITING), spent = has(conditions, order, KHL_COUNT_SPENT);
    make_card(image, "MILL");
    if (has(conditions, order, KHL_TABLE_FULL))
        fill_table(image);
    else
        add_partner(image, "HARBOR", SINGLE);
    if (record_of(image, "HARBOR") != NULL && (waits || spent))
        put_sending(record_of(image, "HARBOR"), spent ? KHL_COUNT_LAST : 5,
                    waits ? KHL_PHASE_WAITING : KHL_PHASE_BROKEN, waits);
    if (has(conditions, order, KHL_BAD_IMAGE))
        image->bytes[image->length++] = 0;
}

static size_t room_for(unsigned conditions, const uint32_t *order, size_t room) {
    return has(conditions, order, KHL_NO_ROOM) ? room - 1 : room;
}

static const char *partner_for(unsigned conditions, const uint32_t *order) {
    return has(conditions, order, KHL_NO_PARTNER) ? "HARBOUR" : "HARBOR";
}

/* two ways of 12: the kind of the IV, and notarized */
static void order_of_build_ksm(void) {
    static const uint32_t order[] = {13, 6, 3, 7, 8, 11, 12, 0};
    for (unsigned conditions = 0; conditions < 1u << 7; conditions++)
        for (int way = 0; way < 2; way++) {
            struct image image;
            uint8_t request[KHL_REQUEST] = {1};
            int malformed = has(conditions, order, 12);
            put_asked(request, 0, has(conditions, order, 11) ? 0 : 0x0101010101010101, KHL_FLAG_P, "");
            put_iv(request, (enum khl_iv_kind)(malformed && way == 0 ? 3 : 0), 0);
            khl_request_put_notarized(request, malformed && way == 1 ? 2 : way);
            make_image(&image, conditions, order);
            trying("build a KSM with the conditions %02X in way %d", conditions, way);
            answers(build_ksm(&image, partner_for(conditions, order), request, sizeof request,
                              room_for(conditions, order, KHL_ROOM)),
                    first_of(conditions, order));
        }
}

static void order_of_build_rsi(void) {
    static const uint32_t order[] = {13, 6, 3, 12, 0};
    for (unsigned conditions = 0; conditions < 1u << 4; conditions++) {
        struct image image;
        make_image(&image, conditions, order);
        trying("build an RSI with the conditions %02X", conditions);
        answers(build_rsi(&image, partner_for(conditions, order), has(conditions, order, 12) ? "IV.KD" : "KD",
                          room_for(conditions, order, KHL_ROOM)),
                first_of(conditions, order));
    }
}

static void order_of_ask_and_remove(void) {
    static const uint32_t order[] = {13, 6, 3, 0};
    for (unsigned conditions = 0; conditions < 1u << 3; conditions++) {
        struct image image, made;
        make_image(&image, conditions, order);
        trying("ask with the conditions %02X", conditions);
        answers(ask(&image, partner_for(conditions, order), room_for(conditions, order, KHL_ROOM)),
                first_of(conditions, order));
        trying("remove with the conditions %02X", conditions);
        answers(take_out(&image, partner_for(conditions, order), room_for(conditions, order, KHL_IMAGE_MOST), &made),
                first_of(conditions, order));
    }
}

/* here the condition is that nothing waits: 5 in the place of 7 */
static void order_of_give_up(void) {
    static const uint32_t order[] = {13, 3, 5, 0}, image_order[] = {13, 3, 7, 0};
    for (unsigned conditions = 0; conditions < 1u << 3; conditions++) {
        struct image image;
        make_image(&image, conditions ^ 4u, image_order);
        trying("give up with the conditions %02X", conditions);
        answers(give_up(&image, partner_for(conditions, order)), first_of(conditions, order));
    }
}

static void order_of_start(void) {
    static const uint32_t order[] = {6, 10, 0};
    for (unsigned conditions = 0; conditions < 1u << 2; conditions++) {
        struct image made;
        trying("start with the conditions %02X", conditions);
        answers(start(has(conditions, order, 10) ? "mill" : "MILL", room_for(conditions, order, KHL_IMAGE_MOST), &made),
                first_of(conditions, order));
    }
}

/* each way of 10 and of 12 */
static void order_of_load(void) {
    static const uint32_t order[] = {13, 6, 10, 12, 11, 9, 0};
    static const char *const taken[] = {"MILL", "P1", "-"};
    for (unsigned conditions = 0; conditions < 1u << 6; conditions++)
        for (int way = 0; way < 3; way++) {
            struct image image, made;
            uint8_t key[9] = {0};
            memcpy(key, good_key, 8);
            key[0] ^= (uint8_t)has(conditions, order, 11);
            int bad_name = has(conditions, order, 12) && way != 1, bad_length = has(conditions, order, 12) && way != 0;
            make_image(&image, conditions, order);
            if (!has(conditions, order, 9) && way == 1 && !has(conditions, order, 13))
                add_partner(&image, "P1", PAIR);
            trying("load with the conditions %02X in way %d", conditions, way);
            answers(load(&image, has(conditions, order, 10) ? taken[way] : "QUAY", bad_name ? "top" : TOP_NAME, key,
                         bad_length ? 9 : 8, room_for(conditions, order, KHL_IMAGE_MOST), &made),
                    first_of(conditions, order));
        }
}

void test_order(void) {
    order_of_build_ksm();
    order_of_build_rsi();
    order_of_ask_and_remove();
    order_of_give_up();
    order_of_start();
    order_of_load();
}
