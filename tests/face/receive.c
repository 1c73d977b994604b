/* Receive: every class, its reply, its report, and what becomes of the table. */
#include <string.h>

#include "call.h"
#include "check.h"
#include "tests.h"

#define ONE 0x0123456789ABCDEF
#define TWO 0x8F6E5D4C3B2A1906 /* not of odd parity: it is never marked P */
#define KSM_REST "KD/0123456789ABCDEF CTP/5 MAC/0123 4567 )"

/* HARBOR with MILL in the second slot: waiting with two keys at count 7, expecting 5 */
static void make_harbor(struct image *image, enum form form) {
    make_card(image, "HARBOR");
    add_partner(image, "ABBEY", SINGLE);
    uint8_t *mill = add_partner(image, "MILL", form);
    put_sending(mill, 7, KHL_PHASE_WAITING, 2);
    put_expected(mill, 5);
    add_partner(image, "QUAY", PAIR);
}

static uint32_t receive_text(struct image *image, const char *text) {
    return receive(image, text, strlen(text), KHL_ROOM);
}

/* the image is that one, byte for byte */
static void becomes(const struct image *image, const struct image *wanted) {
    same("the image", image->bytes, wanted->bytes, wanted->length);
}

static void services(void) {
    static const char *const contents[] = {"",      "IV",       "KD",  "KD.IV",  "KK",     "KK.IV",
                                           "KK.KD", "KK.KD.IV", "*KK", "*KK.IV", "*KK.KD", "*KK.KD.IV"};
    for (int i = 0; i < 24; i++) {
        struct image image, before;
        struct text text;
        make_harbor(&image, SINGLE);
        before = image;
        begin(&text, "RSI", "HARBOR", "MILL");
        add(&text, "SVR/%s %s)", contents[i / 2], i % 2 == 0 ? "" : "EDC/0123 ABCD ");
        trying("an RSI for '%s'%s", contents[i / 2], i % 2 == 0 ? "" : " with an EDC");
        answers(receive(&image, text.bytes, text.length, KHL_ROOM), KHL_DONE);
        reports(0, 0, KHL_CLASS_RSI, (enum khl_service)(1 + i / 2), NULL, NULL);
        becomes(&image, &before);
    }
}

static void options(void) {
    static const char *const texts[] = {
        "CSM(MCL/DSM RCV/HARBOR ORG/MILL )",       "CSM(MCL/ERS RCV/HARBOR ORG/MILL ANY-THING )",
        "CSM(MCL/RFS RCV/HARBOR ORG/MILL ./*- )",  "CSM(MCL/RTR RCV/HARBOR ORG/MILL  )",
        "CSM(MCL/KSM RCV/HARBOR ORG/MILL IDC/X )", "CSM(MCL/KSM RCV/HARBOR ORG/MILL IDC/X NOS/ )",
        "CSM(MCL/KSM RCV/HARBOR ORG/MILL KK/X )",  "CSM(MCL/KSM RCV/HARBOR ORG/MILL *KK/X )",
        "CSM(MCL/KSM RCV/HARBOR ORG/MILL KKU/X )", "CSM(MCL/KSM RCV/HARBOR ORG/MILL *KKU/X )",
        "CSM(MCL/KSM RCV/HARBOR ORG/MILL KDU/X )", "CSM(MCL/RSI RCV/HARBOR ORG/MILL IDU/X )",
        "CSM(MCL/RSI RCV/HARBOR ORG/MILL IDC/X )",
    };
    static const char wanted[] = "CSM(MCL/ESM RCV/MILL ORG/HARBOR ERF/O )";
    for (size_t i = 0; i < sizeof texts / sizeof *texts; i++) {
        struct image image;
        make_harbor(&image, PAIR);
        trying("the option %s", texts[i]);
        answers(receive_text(&image, texts[i]), KHL_ERROR);
        reports(KHL_LETTER_O, strlen(wanted), KHL_CLASS_NONE, KHL_SERVICE_NONE, NULL, NULL);
        replies(wanted, strlen(wanted));
    }
}

/* a good KSM: one key or two, under a single key or a pair, notarized or not, with IV and date or not */
static void key_message(enum form form, int keys, int notarized, char iv_kind, const char *date, uint32_t count) {
    struct image image, wanted;
    struct text text, confirms;
    uint64_t iv = 0x0011223344556677, mac_key = keys == 2 ? ONE ^ TWO : ONE, last_key = keys == 2 ? TWO : ONE;
    make_harbor(&image, form);
    wanted = image;
    uint8_t *mill = record_of(&wanted, "MILL");
    begin_ksm(&text, "HARBOR", "MILL", notarized);
    add_kd(&text, mill, count, ONE, ".P.K1." TOP_NAME);
    if (keys == 2)
        add_kd(&text, mill, count, TWO, "..P");
    if (iv_kind == 'P')
        add(&text, "IV/P0011223344556677 ");
    if (iv_kind == 'E')
        add(&text, "IV/E%016llX ", (unsigned long long)khl_test_encipher(last_key, iv));
    if (date != NULL)
        add(&text, "EDK/%s ", date);
    add(&text, "CTP/%u ", (unsigned)count);
    end_with_mac(&text, mac_key, 0);
    begin(&confirms, "RSM", "MILL", "HARBOR");
    end_with_mac(&confirms, mac_key, 0);
    put_expected(mill, count + 1);
    put_incoming(mill, keys, ONE, "K1", TWO, "P");

    trying("a KSM, form %d, %d keys, notarized %d, IV %c, date %s, count %u", form, keys, notarized, iv_kind,
           date ? date : "-", (unsigned)count);
    answers(receive(&image, text.bytes, text.length, KHL_ROOM), KHL_DONE);
    reports(0, 47, KHL_CLASS_KSM, KHL_SERVICE_NONE, iv_kind == '-' ? NULL : &iv, date);
    replies(confirms.bytes, confirms.length);
    becomes(&image, &wanted);

    trying("the same KSM once more");
    answers(receive(&image, text.bytes, text.length, KHL_ROOM), KHL_ERROR);
    holds(khl_report_letters(report) == KHL_LETTER_P, "letters %u", khl_report_letters(report));
    becomes(&image, &wanted);
}

static void key_messages(void) {
    for (int kinds = 0; kinds < 8; kinds++) {
        enum form form = kinds & 1 ? SINGLE : PAIR;
        int keys = kinds & 2 ? 1 : 2, notarized = kinds >> 2;
        key_message(form, keys, notarized, '-', NULL, 5);
        key_message(form, keys, notarized, 'P', NULL, 7);
        key_message(form, keys, notarized, 'E', "840229235959", 258);
        key_message(form, keys, notarized, '-', "991231000000", 99999998);
    }
}

/* keys that are sealed otherwise than their text says: NOS over plain ones, notarized ones without it or for others */
static void sealed_otherwise(void) {
    static const struct {
        const char *rcv, *org;
        int notarized;
    } sealed[] = {{"HARBOR", "MILL", 0}, {"HARBOR", "MILL", 1}, {"MILL", "HARBOR", 1}, {"HARBOR", "ABBEY", 1}};
    for (int i = 0; i < 8; i++) {
        struct image image;
        struct text text, other;
        make_harbor(&image, i & 1 ? SINGLE : PAIR);
        begin_ksm(&other, sealed[i / 2].rcv, sealed[i / 2].org, sealed[i / 2].notarized);
        size_t kd = other.length;
        add_kd(&other, record_of(&image, "MILL"), 6, TWO, "");
        begin_ksm(&text, "HARBOR", "MILL", i / 2 != 1);
        add(&text, "%sCTP/6 ", other.bytes + kd);
        end_with_mac(&text, TWO, 0);
        trying("a KSM %s NOS, its key sealed in way %d", i / 2 != 1 ? "with" : "without", i / 2);
        answers(receive(&image, text.bytes, text.length, KHL_ROOM), KHL_ERROR);
        reports(KHL_LETTER_M, reply_length, KHL_CLASS_NONE, KHL_SERVICE_NONE, NULL, NULL);
    }
}

/* an IV of zeros is an IV, and equal keys are accepted, whose exclusive-or is zero */
static void zero_iv_and_equal_keys(void) {
    struct image image;
    struct text text;
    uint64_t zero = 0;
    make_harbor(&image, PAIR);
    begin(&text, "KSM", "HARBOR", "MILL");
    add_kd(&text, record_of(&image, "MILL"), 6, TWO, "");
    add_kd(&text, record_of(&image, "MILL"), 6, TWO, "");
    add(&text, "IV/P0000000000000000 CTP/6 ");
    end_with_mac(&text, 0, 0);
    trying("equal keys and a zero IV");
    answers(receive(&image, text.bytes, text.length, KHL_ROOM), KHL_DONE);
    reports(0, 47, KHL_CLASS_KSM, KHL_SERVICE_NONE, &zero, NULL);
}

static void confirmations(void) {
    struct image image, wanted;
    struct text text;
    static const char complaint[] = "CSM(MCL/ESM RCV/MILL ORG/HARBOR ERF/M )";
    make_harbor(&image, SINGLE);
    wanted = image;
    trying("an RSM whose MAC differs");
    begin(&text, "RSM", "HARBOR", "MILL");
    end_with_mac(&text, 0x1111111111111111, 0);
    answers(receive(&image, text.bytes, text.length, KHL_ROOM), KHL_ERROR);
    reports(KHL_LETTER_M, strlen(complaint), KHL_CLASS_NONE, KHL_SERVICE_NONE, NULL, NULL);
    replies(complaint, strlen(complaint));
    becomes(&image, &wanted);

    trying("an RSM");
    begin(&text, "RSM", "HARBOR", "MILL");
    end_with_mac(&text, 0x1111111111111111 ^ 0x2222222222222222, 0);
    put_phase(record_of(&wanted, "MILL"), KHL_PHASE_CONFIRMED);
    answers(receive(&image, text.bytes, text.length, KHL_ROOM), KHL_DONE);
    reports(0, 0, KHL_CLASS_RSM, KHL_SERVICE_NONE, NULL, NULL);
    becomes(&image, &wanted);

    trying("an RSM when nothing waits");
    answers(receive(&image, text.bytes, text.length, KHL_ROOM), KHL_NONE_WAITING);
}

static void failures(void) {
    static const struct {
        const char *fields;
        unsigned letters;
        uint32_t next;
    } cases[] = {
        {"ERF/A ", 1, 7},
        {"ERF/ABFIKMOU ", 0x17F, 7},
        {"CTP/9 CTR/1 ERF/P ", KHL_LETTER_P, 9},
        {"CTP/7 CTR/99999999 ERF/FMP ", KHL_LETTER_F | KHL_LETTER_M | KHL_LETTER_P, 7},
        {"CTP/1 CTR/6 ERF/P EDC/0000 0000 ", KHL_LETTER_P, 7},
        {"CTP/99999999 CTR/6 ERF/ABFIKMOPU ", 0x1FF, 99999999},
    };
    for (size_t i = 0; i < sizeof cases / sizeof *cases; i++) {
        struct image image, wanted;
        struct text text;
        make_harbor(&image, PAIR);
        wanted = image;
        begin(&text, "ESM", "HARBOR", "MILL");
        add(&text, "%s)", cases[i].fields);
        put_sending(record_of(&wanted, "MILL"), cases[i].next, KHL_PHASE_BROKEN, 0);
        trying("an ESM with %s", cases[i].fields);
        answers(receive(&image, text.bytes, text.length, KHL_ROOM), KHL_DONE);
        reports(cases[i].letters, 0, KHL_CLASS_ESM, KHL_SERVICE_NONE, NULL, NULL);
        becomes(&image, &wanted);
        trying("the same ESM once more");
        answers(receive(&image, text.bytes, text.length, KHL_ROOM), KHL_NONE_WAITING);
    }
}

/* in every phase but waiting RSM and ESM are 5 */
static void nothing_waits(void) {
    for (int phase = KHL_PHASE_IDLE; phase <= KHL_PHASE_BROKEN; phase++) {
        struct image image;
        struct text text;
        if (phase == KHL_PHASE_WAITING)
            continue;
        make_harbor(&image, SINGLE);
        put_sending(record_of(&image, "MILL"), phase == KHL_PHASE_IDLE ? 1 : 7, (enum khl_phase)phase,
                    phase == KHL_PHASE_CONFIRMED ? 2 : 0);
        begin(&text, "RSM", "HARBOR", "MILL");
        end_with_mac(&text, 0x1111111111111111 ^ 0x2222222222222222, 0);
        trying("an RSM and an ESM in phase %d", phase);
        answers(receive(&image, text.bytes, text.length, KHL_ROOM), KHL_NONE_WAITING);
        answers(receive_text(&image, "CSM(MCL/ESM RCV/HARBOR ORG/MILL ERF/M )"), KHL_NONE_WAITING);
    }
}

/* lengths 0, 1, 512 and 513, and texts that are nearly messages */
static void lengths(void) {
    static const char *const none[] = {
        "CSM(MCL/RSI RCV/HARBOR ORG/MILL SVR/IV.KD )",
        "CSM(MCL/RSI RCV/HARBOR ORG/MILL SVR/KD.IV)",
        "CSM(MCL/RSI RCV/HARBOR ORG/MILL SVR/KD.IV )\n",
        " CSM(MCL/RSI RCV/HARBOR ORG/MILL SVR/KD.IV )",
        "CSM(MCL/ESM RCV/HARBOR ORG/MILL CTP/5 CTR/4 ERF/M )",
        "CSM(MCL/ESM RCV/HARBOR ORG/MILL ERF/P )",
        "CSM(MCL/ESM RCV/HARBOR ORG/MILL ERF/MF )",
        "CSM(MCL/RSM RCV/HARBOR ORG/MILL MAC/0123 456f )",
        "CSM(MCL/KSM RCV/HARBOR ORG/MILL NOS/ )",
        "CSM(MCL/KSM RCV/HARBOR ORG/MILL NOS/ NOS/ " KSM_REST,
        "CSM(MCL/KSM RCV/HARBOR ORG/MILL NOS/X " KSM_REST,
        "CSM(MCL/KSM RCV/HARBOR ORG/MILL NOS/" KSM_REST,
        "CSM(MCL/KSM RCV/HARBOR ORG/MILL NOS/ IDC/X " KSM_REST,
        "CSM(MCL/KSM RCV/HARBOR ORG/MILL NOS/ KK/X " KSM_REST,
        "CSM(MCL/KSM RCV/HARBOR ORG/MILL NOS/ CTP/5 MAC/0123 4567 )",
        "CSM(MCL/KSM RCV/HARBOR ORG/MILL KD/0123456789ABCDEF NOS/ CTP/5 MAC/0123 4567 )",
        "CSM(MCL/KSM RCV/HARBOR ORG/MILL KD/0123456789ABCDEF NOS/ " KSM_REST,
        "CSM(MCL/RSM RCV/HARBOR ORG/MILL NOS/ MAC/0123 4567 )",
        "C",
        "CSM(",
    };
    struct image image;
    char text[KHL_TEXT_MOST + 1];
    make_harbor(&image, SINGLE);
    memset(text, 'A', sizeof text);
    memcpy(text, "CSM(MCL/DSM RCV/HARBOR ORG/MILL ", 32);
    memcpy(text + KHL_TEXT_MOST - 2, " )", 2);
    trying("a text of 512 bytes");
    answers(receive(&image, text, KHL_TEXT_MOST, KHL_ROOM), KHL_ERROR);
    memcpy(text + KHL_TEXT_MOST - 2, "A )", 3);
    trying("a text of 513 bytes");
    answers(receive(&image, text, KHL_TEXT_MOST + 1, KHL_ROOM), KHL_NO_MESSAGE);
    trying("a text of no bytes");
    answers(receive(&image, text, 0, KHL_ROOM), KHL_NO_MESSAGE);
    for (size_t i = 0; i < sizeof none / sizeof *none; i++) {
        trying("the text %s", none[i]);
        answers(receive_text(&image, none[i]), KHL_NO_MESSAGE);
    }
    for (size_t length = 0; length < 47; length++) {
        trying("the first %zu bytes of an RSM", length);
        answers(receive(&image, "CSM(MCL/RSM RCV/HARBOR ORG/MILL MAC/0123 4567 )", length, KHL_ROOM), KHL_NO_MESSAGE);
    }
}

void test_receive(void) {
    services();
    options();
    key_messages();
    sealed_otherwise();
    zero_iv_and_equal_keys();
    confirmations();
    failures();
    nothing_waits();
    lengths();
}
