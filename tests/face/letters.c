/* A KSM, plain and notarized, with every combination of errors, by itself and behind every combination of the answers
 * that are tested earlier. */
#include <stdio.h>
#include <string.h>

#include "call.h"
#include "check.h"
#include "tests.h"

#define ODD_KEY 0x0123456789ABCDEF
#define EVEN_KEY 0x0123456789ABCDEE
#define SECOND_KEY 0x8F6E5D4C3B2A1906 /* even, and not marked P */

enum { EXPECTED = 600 };

/* the errors of a KSM, and two ways of F and of P */
enum error {
    NAME_FOREIGN = 1,
    KEY_EVEN = 2,
    IV_BAD = 4,
    DATE_BAD = 8,
    MAC_BAD = 16,
    COUNT_LOW = 32,
    COUNT_LAST = 64,
    ERRORS = 128
};

/* what is wrong before the message is judged, in the order of the answers */
enum fault { ILLEGAL = 1, NO_ROOM = 2, NO_MESSAGE = 4, NOT_FOR_US = 8, NO_PARTNER = 16, FAULTS = 32 };

static void make_harbor(struct image *image) {
    make_card(image, "HARBOR");
    add_partner(image, "ABBEY", SINGLE);
    put_expected(add_partner(image, "MILL", PAIR), EXPECTED);
}

static uint32_t count_with(unsigned errors) {
    return errors & COUNT_LAST ? KHL_COUNT_LAST : errors & COUNT_LOW ? EXPECTED - 1 : EXPECTED;
}

static void write_ksm(struct text *text, struct image *image, unsigned errors, unsigned faults, int notarized) {
    uint64_t key = errors & KEY_EVEN ? EVEN_KEY : ODD_KEY;
    uint32_t count = count_with(errors);
    const uint8_t *mill = record_of(image, "MILL");
    begin_ksm(text, faults & NOT_FOR_US ? "HARBOUR" : "HARBOR", faults & NO_PARTNER ? "MILLS" : "MILL", notarized);
    add_kd(text, mill, count, key, ".P.K1");
    add_kd(text, mill, count, SECOND_KEY, errors & NAME_FOREIGN ? "..K2.TOPS" : "..K2." TOP_NAME);
    add(text, "IV/%s ", errors & IV_BAD ? "P012345678" : "P0123456789ABCDEF");
    add(text, "EDK/%s ", errors & DATE_BAD ? "850229000000" : "840229235959");
    add(text, "CTP/%u ", (unsigned)count);
    end_with_mac(text, key ^ SECOND_KEY, errors & MAC_BAD ? 1 : 0);
    if (faults & NO_MESSAGE)
        text->bytes[text->length - 1] = ' ';
}

/* I alone, K alone, then all that hold of F, M and P */
static unsigned letters_of(unsigned errors) {
    if (errors & NAME_FOREIGN)
        return KHL_LETTER_I;
    if (errors & KEY_EVEN)
        return KHL_LETTER_K;
    return (errors & (IV_BAD | DATE_BAD) ? KHL_LETTER_F : 0u) | (errors & MAC_BAD ? KHL_LETTER_M : 0u) |
           (errors & (COUNT_LOW | COUNT_LAST) ? KHL_LETTER_P : 0u);
}

/* the ESM for these letters */
static void write_esm(struct text *text, unsigned letters, uint32_t count) {
    begin(text, "ESM", "MILL", "HARBOR");
    if (letters & KHL_LETTER_P)
        add(text, "CTP/%u CTR/%u ", (unsigned)EXPECTED, (unsigned)count);
    add(text, "ERF/");
    for (int i = 0; i < 9; i++)
        if (letters >> i & 1)
            add(text, "%c", "ABFIKMOPU"[i]);
    add(text, " )");
}

static void judged(unsigned errors, int notarized) {
    struct image image, before;
    struct text text, complaint;
    unsigned letters = letters_of(errors);
    make_harbor(&image);
    before = image;
    write_ksm(&text, &image, errors, 0, notarized);
    trying("a KSM with the errors %02X, notarized %d", errors, notarized);
    uint32_t answer = receive(&image, text.bytes, text.length, KHL_ROOM);
    answers(answer, letters ? KHL_ERROR : KHL_DONE);
    if (letters == 0)
        return;
    write_esm(&complaint, letters, count_with(errors));
    reports(letters, complaint.length, KHL_CLASS_NONE, KHL_SERVICE_NONE, NULL, NULL);
    replies(complaint.bytes, complaint.length);
    same("the image", image.bytes, before.bytes, before.length);
}

static void refused(unsigned faults, unsigned errors, int notarized) {
    static const uint32_t order[] = {KHL_BAD_IMAGE, KHL_NO_ROOM, KHL_NO_MESSAGE, KHL_NOT_FOR_US, KHL_NO_PARTNER};
    struct image image;
    struct text text;
    int first = 0;
    make_harbor(&image);
    write_ksm(&text, &image, errors, faults, notarized);
    if (faults & ILLEGAL)
        put_phase(record_of(&image, "ABBEY"), 4);
    while (!(faults >> first & 1))
        first++;
    trying("a KSM with the faults %02X and the errors %02X, notarized %d", faults, errors, notarized);
    answers(receive(&image, text.bytes, text.length, faults & NO_ROOM ? KHL_ROOM - 1 : KHL_ROOM), order[first]);
}

/* IVs and dates that are fields of a message but mean nothing */
static void formats(void) {
    static const char *const fields[] = {
        "IV/P ",
        "IV/Q0123456789ABCDEF ",
        "IV/P0123456789ABCDE ",
        "IV/E0123456789ABCDEG ",
        "IV/0123456789ABCDEF ",
        "EDK/840230000000 ",
        "EDK/000229000000 ",
        "EDK/841301000000 ",
        "EDK/840100000000 ",
        "EDK/840101240000 ",
        "EDK/840101006000 ",
        "EDK/840101000060 ",
        "IV/P EDK/840101000060 ",
    };
    for (size_t i = 0; i < sizeof fields / sizeof *fields; i++) {
        struct image image;
        struct text text;
        make_harbor(&image);
        begin(&text, "KSM", "HARBOR", "MILL");
        add_kd(&text, record_of(&image, "MILL"), EXPECTED, ODD_KEY, "");
        add(&text, "%sCTP/%d ", fields[i], EXPECTED);
        end_with_mac(&text, ODD_KEY, 0);
        trying("a KSM with %s", fields[i]);
        answers(receive(&image, text.bytes, text.length, KHL_ROOM), KHL_ERROR);
        reports(KHL_LETTER_F, reply_length, KHL_CLASS_NONE, KHL_SERVICE_NONE, NULL, NULL);
    }
}

/* with 99,999,999 expected every KSM is P */
static void count_spent(void) {
    static const uint32_t counts[] = {1, 99999998, 99999999};
    for (size_t i = 0; i < 3; i++) {
        struct image image;
        struct text text;
        make_harbor(&image);
        uint8_t *mill = record_of(&image, "MILL");
        put_expected(mill, KHL_COUNT_LAST);
        begin(&text, "KSM", "HARBOR", "MILL");
        add_kd(&text, mill, counts[i], ODD_KEY, "");
        add(&text, "CTP/%u ", (unsigned)counts[i]);
        end_with_mac(&text, ODD_KEY, 0);
        trying("99,999,999 expected, count %u", (unsigned)counts[i]);
        answers(receive(&image, text.bytes, text.length, KHL_ROOM), KHL_ERROR);
        reports(KHL_LETTER_P, reply_length, KHL_CLASS_NONE, KHL_SERVICE_NONE, NULL, NULL);
    }
}

void test_letters(void) {
    for (int notarized = 0; notarized <= 1; notarized++) {
        for (unsigned errors = 0; errors < ERRORS; errors++)
            judged(errors, notarized);
        for (unsigned faults = 1; faults < FAULTS; faults++)
            for (unsigned errors = 0; errors < ERRORS; errors += 9)
                refused(faults, errors, notarized);
    }
    formats();
    count_spent();
}
