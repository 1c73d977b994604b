/* Build a KSM and build an RSI: the messages, byte for byte, and what becomes of the table. */
#include <string.h>

#include "call.h"
#include "check.h"
#include "tests.h"

#define ONE 0x0123456789ABCDEF
#define TWO 0x8F6E5D4C3B2A1906 /* not of odd parity: it is never marked P */
#define IV_VALUE 0x00112233445566FF
#define DATE "840229235959"

enum { NEXT = 258 };

static void make_mill(struct image *image, enum form form, enum khl_phase phase) {
    make_card(image, "MILL");
    add_partner(image, "ABBEY", SINGLE);
    uint8_t *harbor = add_partner(image, "HARBOR", form);
    put_sending(harbor, phase == KHL_PHASE_IDLE ? 1 : NEXT, phase, phase == KHL_PHASE_CONFIRMED ? 1 : 0);
    put_expected(harbor, 9);
}

/* two keys, an IV and a date: a good request from which the tests below depart */
static void make_request(uint8_t *request) {
    memset(request, 0, KHL_REQUEST);
    khl_request_put_count(request, 2);
    put_asked(request, 0, ONE, KHL_FLAG_P | KHL_FLAG_IDK1, "K1");
    put_asked(request, 1, TWO, 0, "");
    put_iv(request, KHL_IV_ENCIPHERED, IV_VALUE);
    put_date(request, DATE);
}

/* the subfields behind a KD for these flags */
static const char *subfields(unsigned flags) {
    static const char *const all[] = {"",       ".P",      "..NAME1",     ".P.NAME1",
                                      "...TOP", ".P..TOP", "..NAME1.TOP", ".P.NAME1.TOP"};
    return all[flags];
}

/* one form of a key message: the flags of its keys, the kind of its IV, dated or not, notarized or not */
static void key_message(enum form form, int keys, unsigned flags, int iv_kind, int dated, int notarized,
                        enum khl_phase phase) {
    struct image image, wanted;
    struct text text;
    uint8_t request[KHL_REQUEST];
    uint64_t mac_key = keys == 2 ? ONE ^ TWO : ONE, last_key = keys == 2 ? TWO : ONE;
    unsigned second = (flags + 2) & ~1u & 7;
    make_mill(&image, form, phase);
    wanted = image;
    uint8_t *harbor = record_of(&wanted, "HARBOR");
    uint32_t next = khl_record_next(harbor);
    make_request(request);
    khl_request_put_count(request, keys);
    put_asked(request, 0, ONE, flags, "NAME1");
    put_asked(request, 1, TWO, second, "NAME1");
    khl_request_put_iv_kind(request, (enum khl_iv_kind)iv_kind);
    khl_request_put_dated(request, dated);
    khl_request_put_notarized(request, notarized);

    begin_ksm(&text, "HARBOR", "MILL", notarized);
    add_kd(&text, harbor, next, ONE, subfields(flags));
    if (keys == 2)
        add_kd(&text, harbor, next, TWO, subfields(second));
    if (iv_kind != KHL_IV_NONE)
        add(&text, "IV/%c%016llX ", iv_kind == KHL_IV_PLAIN ? 'P' : 'E',
            (unsigned long long)(iv_kind == KHL_IV_PLAIN ? IV_VALUE : khl_test_encipher(last_key, IV_VALUE)));
    add(&text, dated ? "EDK/" DATE " CTP/%u " : "CTP/%u ", (unsigned)next);
    end_with_mac(&text, mac_key, 0);
    put_next(harbor, next + 1);
    put_phase(harbor, KHL_PHASE_WAITING);
    put_outgoing(harbor, keys, ONE, flags & KHL_FLAG_IDK1 ? "NAME1" : NULL, TWO,
                 second & KHL_FLAG_IDK1 ? "NAME1" : NULL);

    trying("build a KSM, form %d, %d keys, flags %u, IV kind %d, dated %d, notarized %d, phase %d", form, keys, flags,
           iv_kind, dated, notarized, phase);
    answers(build_ksm(&image, "HARBOR", request, KHL_REQUEST, KHL_ROOM), KHL_DONE);
    reports(0, text.length, KHL_CLASS_NONE, KHL_SERVICE_NONE, NULL, NULL);
    replies(text.bytes, text.length);
    same("the image", image.bytes, wanted.bytes, wanted.length);
    trying("build another while it waits");
    answers(build_ksm(&image, "HARBOR", request, KHL_REQUEST, KHL_ROOM), KHL_WAITING);
}

static void key_messages(void) {
    static const enum khl_phase phases[] = {KHL_PHASE_IDLE, KHL_PHASE_CONFIRMED, KHL_PHASE_BROKEN};
    for (unsigned flags = 0; flags < 8; flags++)
        for (int kinds = 0; kinds < 6; kinds++) {
            int iv_kind = kinds % 3, notarized = kinds / 3;
            key_message(SINGLE, 1, flags, iv_kind, iv_kind == KHL_IV_PLAIN, notarized, phases[flags % 3]);
            key_message(PAIR, 2, flags, iv_kind, iv_kind != KHL_IV_PLAIN, notarized, phases[iv_kind]);
        }
}

/* parts that would not be written are not judged */
static void not_judged(void) {
    struct image image;
    uint8_t request[KHL_REQUEST];
    memset(request, 0xFF, sizeof request);
    khl_request_put_count(request, 1);
    khl_request_put_flags(request, 0, 0);
    khl_request_put_iv_kind(request, KHL_IV_NONE);
    khl_request_put_dated(request, 0);
    khl_request_put_notarized(request, 0);
    make_mill(&image, SINGLE, KHL_PHASE_IDLE);
    trying("a request whose unused parts are nonsense");
    answers(build_ksm(&image, "HARBOR", request, sizeof request, KHL_ROOM), KHL_DONE);
}

/* each way of 12, alone */
static void malformed(void) {
    static const struct {
        size_t at;
        uint8_t value;
        const char *what;
    } cases[] = {
        {KHL_REQUEST_COUNT, 0, "no key"},
        {KHL_REQUEST_COUNT, 3, "three keys"},
        {KHL_REQUEST_COUNT, 255, "255 keys"},
        {KHL_REQUEST_FIRST + KHL_ASKED_FLAGS, 8, "a flag that is none"},
        {KHL_REQUEST_SECOND + KHL_ASKED_FLAGS, 128, "a flag that is none, of the second key"},
        {KHL_REQUEST_FIRST + KHL_ASKED_NAME, ' ', "a name that begins with a blank"},
        {KHL_REQUEST_FIRST + KHL_ASKED_NAME, 'k', "a small letter in a name"},
        {KHL_REQUEST_FIRST + KHL_ASKED_NAME + 3, 'X', "a blank inside a name"},
        {KHL_REQUEST_FIRST + KHL_ASKED_NAME + 15, 0, "a name filled with a zero"},
        {KHL_REQUEST_SECOND + KHL_ASKED_FLAGS, KHL_FLAG_IDK1, "a missing name to be written"},
        {KHL_REQUEST_IV_KIND, 3, "an IV kind that is none"},
        {KHL_REQUEST_IV_KIND, 255, "an IV kind far above 2"},
        {KHL_REQUEST_DATED, 2, "a date flag that is none"},
        {KHL_REQUEST_DATE, 'A', "a date with a letter"},
        {KHL_REQUEST_DATE + 1, '5', "29 February 1985"},
        {KHL_REQUEST_DATE + 6, '3', "hour 33"},
        {KHL_REQUEST_NOTARIZED, 2, "a notarized of 2"},
        {KHL_REQUEST_NOTARIZED, 255, "a notarized of 255"},
    };
    struct image image;
    uint8_t request[KHL_REQUEST + 1];
    make_mill(&image, PAIR, KHL_PHASE_BROKEN);
    for (size_t i = 0; i < sizeof cases / sizeof *cases; i++) {
        make_request(request);
        request[cases[i].at] = cases[i].value;
        trying("a request with %s", cases[i].what);
        answers(build_ksm(&image, "HARBOR", request, KHL_REQUEST, KHL_ROOM), KHL_BAD_REQUEST);
    }
    make_request(request);
    khl_put_number(khl_request_key(request, 1), KHL_KEY, ONE);
    trying("two equal keys");
    answers(build_ksm(&image, "HARBOR", request, KHL_REQUEST, KHL_ROOM), KHL_BAD_REQUEST);
    for (size_t length = 0; length <= KHL_REQUEST + 1; length += length < 2 || length >= 73 ? 1 : 71) {
        if (length == KHL_REQUEST)
            continue;
        make_request(request);
        khl_request_key(request, 0)[0] = 0x03;
        trying("a request of %zu bytes, its first key marked P and even", length);
        answers(build_ksm(&image, "HARBOR", request, length, KHL_ROOM), KHL_BAD_REQUEST);
    }
}

/* 11 comes before every fault of 12 where one or two keys are used, and only for keys to be marked P */
static void parity(void) {
    struct image image, before;
    uint8_t request[KHL_REQUEST];
    make_mill(&image, PAIR, KHL_PHASE_CONFIRMED);
    before = image;
    for (int keys = 0; keys <= 3; keys++)
        for (int which = 0; which < 2; which++) {
            make_request(request);
            put_asked(request, which, 0x03, KHL_FLAG_P | 0xF8, "bad name");
            khl_request_put_count(request, keys);
            khl_request_put_iv_kind(request, (enum khl_iv_kind)9);
            khl_request_put_dated(request, 9);
            khl_request_put_notarized(request, 9);
            trying("%d keys, the %s one marked P, even, and all else bad", keys, which == 0 ? "first" : "second");
            answers(build_ksm(&image, "HARBOR", request, KHL_REQUEST, KHL_ROOM),
                    keys == 0 || keys == 3 || which >= keys ? KHL_BAD_REQUEST : KHL_BAD_PARITY);
        }
    same("the image", image.bytes, before.bytes, before.length);
}

/* the longest that the card writes */
static void longest(void) {
    struct image image;
    uint8_t request[KHL_REQUEST];
    static const char name[] = "ABCDEFGHIJKLMNOP";
    make_card(&image, "PONMLKJIHGFEDCBA");
    uint8_t *record = add_partner(&image, name, PAIR);
    khl_put_name(record + KHL_RECORD_NAME, name);
    make_request(request);
    put_asked(request, 0, ONE, 7, name);
    put_asked(request, 1, 0xFEDCBA9876543210, 7, name);
    for (int notarized = 0; notarized <= 1; notarized++) {
        put_sending(record, 99999998, KHL_PHASE_BROKEN, 0);
        khl_request_put_notarized(request, notarized);
        trying("the longest KSM %s NOS", notarized ? "with" : "without");
        answers(build_ksm(&image, name, request, KHL_REQUEST, KHL_ROOM), KHL_DONE);
        holds(reply_length == (notarized ? KHL_KSM_MOST : 232), "it has %zu bytes", reply_length);
    }
    put_sending(record, KHL_COUNT_LAST, KHL_PHASE_BROKEN, 0);
    trying("the count behind it");
    answers(build_ksm(&image, name, request, KHL_REQUEST, KHL_ROOM), KHL_COUNT_SPENT);
    put_sending(record, 2, KHL_PHASE_BROKEN, 0);
    trying("a room of 10,000 bytes");
    answers(build_ksm(&image, name, request, KHL_REQUEST, 10000), KHL_DONE);
}

/* the twelve services, in every phase; others are 12 */
static void services(void) {
    static const char *const good[] = {"",      "IV",       "KD",  "KD.IV",  "KK",     "KK.IV",
                                       "KK.KD", "KK.KD.IV", "*KK", "*KK.IV", "*KK.KD", "*KK.KD.IV"};
    static const char *const bad[] = {" ", "IV.KD", "KD.", ".IV", "*KD", "kd", "KD.IV.KD", "**KK", "KD IV", "K"};
    struct image image;
    for (size_t i = 0; i < sizeof good / sizeof *good; i++) {
        struct text text;
        make_mill(&image, SINGLE, (enum khl_phase)(i % 4));
        put_sending(record_of(&image, "HARBOR"), i % 4 == 0 ? 1 : NEXT, (enum khl_phase)(i % 4),
                    i % 4 == 1 || i % 4 == 2);
        begin(&text, "RSI", "HARBOR", "MILL");
        add(&text, "SVR/%s )", good[i]);
        trying("build an RSI for '%s' in phase %zu", good[i], i % 4);
        answers(build_rsi(&image, "HARBOR", good[i], KHL_ROOM), KHL_DONE);
        reports(0, text.length, KHL_CLASS_NONE, KHL_SERVICE_NONE, NULL, NULL);
        replies(text.bytes, text.length);
    }
    for (size_t i = 0; i < sizeof bad / sizeof *bad; i++) {
        trying("build an RSI for '%s'", bad[i]);
        answers(build_rsi(&image, "HARBOR", bad[i], KHL_ROOM), KHL_BAD_REQUEST);
    }
}

void test_build(void) {
    key_messages();
    not_judged();
    malformed();
    parity();
    longest();
    services();
}
