/* Two cards exchange keys from end to end, held to texts that were made with an independent library (OpenSSL's DES). */
#include <string.h>

#include "call.h"
#include "check.h"
#include "tests.h"

#define ONE 0x133457799BBCDFF1
#define TWO 0x8F6E5D4C3B2A1907
#define IV_VALUE 0x00112233445566FF
#define DATE "840229235959"

static const char first_ksm[] =
    "CSM(MCL/KSM RCV/HARBOR ORG/MILL KD/BAD32B371DF2EA54.P.AUTH1.TOP KD/DF41056E88140B8D..DATA1 "
    "IV/ECF1976AD72CAEDF7 EDK/840229235959 CTP/1 MAC/6D29 BC73 )";
static const char second_ksm[] =
    "CSM(MCL/KSM RCV/HARBOR ORG/MILL KD/BE1C9690D8908588.P.AUTH1.TOP KD/669FC302C5E819C9..DATA1 "
    "IV/ECF1976AD72CAEDF7 EDK/840229235959 CTP/2 MAC/7F74 DDD5 )";
static const char rsm[] = "CSM(MCL/RSM RCV/MILL ORG/HARBOR MAC/BDEC 38D4 )";
static const char ksm_back[] = "CSM(MCL/KSM RCV/MILL ORG/HARBOR KD/DF41056E88140B8D CTP/1 MAC/C62B 3E19 )";
static const char rsm_back[] = "CSM(MCL/RSM RCV/HARBOR ORG/MILL MAC/ED0B 7467 )";
static const char notarized_ksm[] =
    "CSM(MCL/KSM RCV/HARBOR ORG/MILL NOS/ KD/D12DF862D26D9BF5.P.AUTH1.TOP KD/8EE412ACE01FB638..DATA1 "
    "IV/ECF1976AD72CAEDF7 EDK/840229235959 CTP/3 MAC/7C25 AD29 )";
static const char notarized_back[] = "CSM(MCL/KSM RCV/MILL ORG/HARBOR NOS/ KD/36AE12B9B1E47C56 CTP/2 MAC/3AC2 DB80 )";
static const char late_esm[] = "CSM(MCL/ESM RCV/MILL ORG/HARBOR CTP/2 CTR/1 ERF/P )";

static struct image mill, harbor;

/* both cards are made by the card's own calls */
static void load_both(void) {
    static const uint8_t pair[] = {0x01, 0x23, 0x45, 0x67, 0x89, 0xAB, 0xCD, 0xEF,
                                   0xFE, 0xDC, 0xBA, 0x98, 0x76, 0x54, 0x32, 0x10};
    struct image made;
    trying("both cards loaded");
    answers(start("MILL", KHL_IMAGE_MOST, &made), KHL_DONE);
    answers(load(&made, "HARBOR", TOP_NAME, pair, sizeof pair, KHL_IMAGE_MOST, &mill), KHL_DONE);
    answers(start("HARBOR", KHL_IMAGE_MOST, &made), KHL_DONE);
    answers(load(&made, "MILL", TOP_NAME, pair, sizeof pair, KHL_IMAGE_MOST, &harbor), KHL_DONE);
}

static void make_request(uint8_t *request) {
    memset(request, 0, KHL_REQUEST);
    khl_request_put_count(request, 2);
    put_asked(request, 0, ONE, KHL_FLAG_P | KHL_FLAG_IDK1 | KHL_FLAG_IDK2, "AUTH1");
    put_asked(request, 1, TWO, KHL_FLAG_IDK1, "DATA1");
    put_iv(request, KHL_IV_ENCIPHERED, IV_VALUE);
    put_date(request, DATE);
}

static void build(const char *wanted, int notarized) {
    uint8_t request[KHL_REQUEST];
    make_request(request);
    khl_request_put_notarized(request, notarized);
    trying("MILL builds %s", wanted);
    answers(build_ksm(&mill, "HARBOR", request, sizeof request, KHL_ROOM), KHL_DONE);
    replies(wanted, strlen(wanted));
}

/* a text arrives; `wanted` is the reply, or null where there is none */
static void arrives(struct image *at, const char *text, uint32_t answer, const char *wanted) {
    trying("there arrives %s", text);
    answers(receive(at, text, strlen(text), KHL_ROOM), answer);
    replies(wanted ? wanted : "", wanted ? strlen(wanted) : 0);
}

/* phase, next send and expected of both ends */
static void stand(enum khl_phase mill_phase, uint32_t mill_next, uint32_t mill_expected, enum khl_phase harbor_phase,
                  uint32_t harbor_next, uint32_t harbor_expected) {
    const uint8_t *a = record_of(&mill, "HARBOR"), *b = record_of(&harbor, "MILL");
    holds(khl_record_phase(a) == mill_phase && khl_record_next(a) == mill_next &&
              khl_record_expected(a) == mill_expected,
          "MILL stands wrong");
    holds(khl_record_phase(b) == harbor_phase && khl_record_next(b) == harbor_next &&
              khl_record_expected(b) == harbor_expected,
          "HARBOR stands wrong");
}

/* what one end sent is what the other holds, as both tell when asked */
static void keys_agree(const struct image *from, const char *to, const struct image *at, const char *of) {
    uint8_t sent[KHL_RECORD];
    trying("the keys to %s", to);
    answers(ask(from, to, KHL_ROOM), KHL_DONE);
    memcpy(sent, reply, KHL_RECORD);
    answers(ask(at, of, KHL_ROOM), KHL_DONE);
    holds(khl_record_phase(sent) == KHL_PHASE_CONFIRMED, "not confirmed");
    same("the keys", khl_record_outgoing(sent), khl_record_incoming(reply), KHL_SET);
}

/* HARBOR builds one key without ornament, and the exchange is confirmed */
static void back(const char *ksm, int notarized) {
    uint8_t request[KHL_REQUEST] = {1};
    put_asked(request, 0, TWO, 0, "");
    khl_request_put_notarized(request, notarized);
    trying("HARBOR builds %s", ksm);
    answers(build_ksm(&harbor, "MILL", request, sizeof request, KHL_ROOM), KHL_DONE);
    replies(ksm, strlen(ksm));
    arrives(&mill, ksm, KHL_DONE, rsm_back);
    arrives(&harbor, rsm_back, KHL_DONE, NULL);
    keys_agree(&harbor, "MILL", &mill, "HARBOR");
}

/* the same keys notarized, both ways; whoever opens them must be the one that they are for */
static void notarized(void) {
    uint64_t iv = IV_VALUE;
    build(notarized_ksm, 1);
    arrives(&mill, notarized_ksm, KHL_NOT_FOR_US, NULL);
    arrives(&harbor, notarized_ksm, KHL_DONE, rsm);
    reports(0, 47, KHL_CLASS_KSM, KHL_SERVICE_NONE, &iv, DATE);
    arrives(&mill, rsm, KHL_DONE, NULL);
    keys_agree(&mill, "HARBOR", &harbor, "MILL");
    back(notarized_back, 1);
    stand(KHL_PHASE_CONFIRMED, 4, 3, KHL_PHASE_CONFIRMED, 3, 4);
}

void test_exchange(void) {
    uint64_t iv = IV_VALUE;
    load_both();
    build(first_ksm, 0);
    arrives(&harbor, first_ksm, KHL_DONE, rsm);
    reports(0, 47, KHL_CLASS_KSM, KHL_SERVICE_NONE, &iv, DATE);
    stand(KHL_PHASE_WAITING, 2, 1, KHL_PHASE_IDLE, 1, 2);

    /* the RSM is lost, the resend draws an ESM, which breaks the exchange */
    arrives(&harbor, first_ksm, KHL_ERROR, late_esm);
    arrives(&mill, late_esm, KHL_DONE, NULL);
    reports(KHL_LETTER_P, 0, KHL_CLASS_ESM, KHL_SERVICE_NONE, NULL, NULL);
    stand(KHL_PHASE_BROKEN, 2, 1, KHL_PHASE_IDLE, 1, 2);

    /* anew; the ESM comes once more, first while it waits and then too late */
    build(second_ksm, 0);
    arrives(&harbor, second_ksm, KHL_DONE, rsm);
    arrives(&mill, rsm, KHL_DONE, NULL);
    arrives(&mill, late_esm, KHL_NONE_WAITING, NULL);
    stand(KHL_PHASE_CONFIRMED, 3, 1, KHL_PHASE_IDLE, 1, 3);
    keys_agree(&mill, "HARBOR", &harbor, "MILL");

    /* the other way */
    back(ksm_back, 0);
    stand(KHL_PHASE_CONFIRMED, 3, 2, KHL_PHASE_CONFIRMED, 2, 3);
    keys_agree(&mill, "HARBOR", &harbor, "MILL");

    notarized();

    /* what is meant for one end is nothing to the other, nor to itself */
    arrives(&mill, second_ksm, KHL_NOT_FOR_US, NULL);
    arrives(&harbor, "CSM(MCL/RSI RCV/HARBOR ORG/HARBOR SVR/ )", KHL_NO_PARTNER, NULL);
}
