/* The header's accessors and numbers: each part of report, request, image and record at the bytes that the paper gives
 * it, counted here by hand and not by the header's own names. */
#include <string.h>

#include "../../host/khlongsit.h"
#include "check.h"
#include "tests.h"

/* byte i is i + 1 */
static void count_up(uint8_t *bytes, size_t length) {
    for (size_t i = 0; i < length; i++)
        bytes[i] = (uint8_t)(i + 1);
}

static void numbers_and_names(void) {
    uint8_t bytes[18];
    trying("numbers and names");
    count_up(bytes, sizeof bytes);
    holds(khl_number(bytes, 0) == 0 && khl_number(bytes, 1) == 1, "of no byte and of one");
    holds(khl_number(bytes, 4) == 0x01020304 && khl_number(bytes, 8) == 0x0102030405060708, "the high byte first");
    khl_put_number(bytes + 1, 4, 0xA1B2C3D4);
    same("a number put", bytes, "\x01\xA1\xB2\xC3\xD4\x06", 6);
    khl_put_name(bytes + 1, "MILL");
    same("a name put", bytes, "\x01MILL            \x12", 18);
    holds(khl_name_length(bytes + 1) == 4, "its length");
    khl_put_name(bytes + 1, "ABCDEFGHIJKLMNOPQR");
    same("a name cut", bytes,
         "\x01"
         "ABCDEFGHIJKLMNOP\x12",
         18);
    holds(khl_name_length(bytes + 1) == 16, "its length");
    khl_put_name(bytes + 1, "");
    holds(khl_name_length(bytes + 1) == 0, "a missing name's length");
}

static void report_parts(void) {
    uint8_t report[32];
    trying("the parts of a report");
    holds(KHL_REPORT == 32, "its size");
    count_up(report, sizeof report);
    holds(khl_report_letters(report) == 0x0102, "letters");
    holds(khl_report_length(report) == 0x0304, "length");
    holds(khl_report_class(report) == 5, "class");
    holds(khl_report_service(report) == 6, "service");
    holds(khl_report_iv_present(report) == 7, "IV present");
    holds(khl_report_date_present(report) == 8, "date present");
    holds(khl_report_iv(report) == report + 8, "IV");
    holds(khl_report_date(report) == report + 16, "date");
    holds(KHL_REPORT_ZERO == 16 + 12 && KHL_DATE == 12, "the bytes behind it");
}

static void request_parts(void) {
    uint8_t request[74], wanted[74] = {0};
    trying("the parts of a request");
    holds(KHL_REQUEST == 74, "its size");
    count_up(request, sizeof request);
    holds(khl_request_count(request) == 1, "number of keys");
    holds(khl_request_key(request, 0) == request + 1 && khl_request_key(request, 1) == request + 26, "keys");
    holds(khl_request_flags(request, 0) == 10 && khl_request_flags(request, 1) == 35, "flags");
    holds(khl_request_name(request, 0) == request + 10 && khl_request_name(request, 1) == request + 35, "names");
    holds(khl_request_iv_kind(request) == 52, "IV kind");
    holds(khl_request_iv(request) == request + 52, "IV");
    holds(khl_request_dated(request) == 61, "date flag");
    holds(khl_request_date(request) == request + 61, "date");
    holds(khl_request_notarized(request) == 74, "notarized");
    memset(request, 0, sizeof request);
    khl_request_put_count(request, 2);
    khl_request_put_flags(request, 0, 5);
    khl_request_put_flags(request, 1, 6);
    khl_request_put_iv_kind(request, KHL_IV_PLAIN);
    khl_request_put_dated(request, 3);
    khl_request_put_notarized(request, 4);
    wanted[0] = 2, wanted[9] = 5, wanted[34] = 6, wanted[51] = 1, wanted[60] = 3, wanted[73] = 4;
    same("a request put", request, wanted, sizeof wanted);
}

static void record_parts(void) {
    uint8_t record[156];
    trying("the parts of a record");
    holds(KHL_RECORD == 156 && KHL_SET == 49, "its size, and a set's");
    count_up(record, sizeof record);
    holds(khl_record_identity(record) == record, "identity");
    holds(khl_record_name(record) == record + 16, "key name");
    holds(khl_record_form(record) == 33, "form");
    holds(khl_record_top(record) == record + 33, "top key");
    holds(khl_record_next(record) == 0x32333435, "next send");
    holds(khl_record_expected(record) == 0x36373839, "expected");
    holds(khl_record_phase(record) == 58, "phase");
    const uint8_t *outgoing = khl_record_outgoing(record), *incoming = khl_record_incoming(record);
    holds(outgoing == record + 58 && incoming == record + 107, "key sets");
    holds(khl_set_count(outgoing) == 59 && khl_set_count(incoming) == 108, "their numbers of keys");
    holds(khl_set_key(outgoing, 0) == record + 59 && khl_set_key(outgoing, 1) == record + 83, "keys");
    holds(khl_set_name(outgoing, 0) == record + 67 && khl_set_name(outgoing, 1) == record + 91, "names");
}

/* slots 1 and 3 in use, then all */
static void image_parts(void) {
    static uint8_t image[10065];
    trying("the parts of an image");
    holds(KHL_IMAGE_LEAST == 81 && KHL_IMAGE_MOST == 10065 && KHL_PARTNERS == 64, "its sizes");
    memset(image, 0, sizeof image);
    image[0] = 1, image[18] = 2, image[176] = 2;
    holds(khl_image_own(image) == image + 1, "own identity");
    holds(khl_image_record(image, 0) == NULL && khl_image_record(image, 1) == image + 19, "slots 0 and 1");
    holds(khl_image_record(image, 2) == NULL && khl_image_record(image, 3) == image + 177, "slots 2 and 3");
    for (int slot = 4; slot < 64; slot++)
        holds(khl_image_record(image, slot) == NULL, "slot %d", slot);
    for (size_t slot = 0; slot < 64; slot++)
        image[17 + 157 * slot] = 2;
    for (int slot = 0; slot < 64; slot++)
        holds(khl_image_record(image, slot) == image + 18 + 157 * slot, "slot %d of a full table", slot);
}

/* words that have the numbers from one on, in this order */
static void in_order(const char *what, int from, const int *numbers, size_t count) {
    for (size_t i = 0; i < count; i++)
        holds(numbers[i] == from + (int)i, "%s: the number %d is %d", what, from + (int)i, numbers[i]);
}

#define IN_ORDER(what, from, numbers) in_order(what, from, numbers, sizeof numbers / sizeof *numbers)

static void words(void) {
    static const int answers[] = {KHL_DONE,         KHL_NO_MESSAGE, KHL_NOT_FOR_US,  KHL_NO_PARTNER,  KHL_ERROR,
                                  KHL_NONE_WAITING, KHL_NO_ROOM,    KHL_WAITING,     KHL_COUNT_SPENT, KHL_TABLE_FULL,
                                  KHL_BAD_IDENTITY, KHL_BAD_PARITY, KHL_BAD_REQUEST, KHL_BAD_IMAGE},
                     classes[] = {KHL_CLASS_NONE, KHL_CLASS_RSI, KHL_CLASS_KSM, KHL_CLASS_RSM, KHL_CLASS_ESM},
                     services[] = {KHL_SERVICE_NONE,      KHL_SERVICE_EMPTY, KHL_SERVICE_IV,      KHL_SERVICE_KD,
                                   KHL_SERVICE_KD_IV,     KHL_SERVICE_KK,    KHL_SERVICE_KK_IV,   KHL_SERVICE_KK_KD,
                                   KHL_SERVICE_KK_KD_IV,  KHL_SERVICE_PAIR,  KHL_SERVICE_PAIR_IV, KHL_SERVICE_PAIR_KD,
                                   KHL_SERVICE_PAIR_KD_IV},
                     phases[] = {KHL_PHASE_IDLE, KHL_PHASE_WAITING, KHL_PHASE_CONFIRMED, KHL_PHASE_BROKEN},
                     forms[] = {KHL_FORM_SINGLE, KHL_FORM_PAIR},
                     iv_kinds[] = {KHL_IV_NONE, KHL_IV_PLAIN, KHL_IV_ENCIPHERED},
                     kinds[] = {KHL_KIND_EMPTY, KHL_KIND_OWN, KHL_KIND_PARTNER},
                     bits[] = {KHL_LETTER_A, KHL_LETTER_B, KHL_LETTER_F, KHL_LETTER_I, KHL_LETTER_K,
                               KHL_LETTER_M, KHL_LETTER_O, KHL_LETTER_P, KHL_LETTER_U};
    trying("the numbers of words");
    IN_ORDER("answers", 0, answers);
    IN_ORDER("classes", 0, classes);
    IN_ORDER("services", 0, services);
    IN_ORDER("phases", 0, phases);
    IN_ORDER("forms", 1, forms);
    IN_ORDER("IV kinds", 0, iv_kinds);
    IN_ORDER("kinds of record", 0, kinds);
    for (int i = 0; i < 9; i++)
        holds(bits[i] == 1 << i, "the letter %c", "ABFIKMOPU"[i]);
    holds(KHL_FLAG_P == 1 && KHL_FLAG_IDK1 == 2 && KHL_FLAG_IDK2 == 4, "flags");
}

void test_parts(void) {
    numbers_and_names();
    report_parts();
    request_parts();
    record_parts();
    image_parts();
    words();
}
