#include "call.h"

#include <inttypes.h>
#include <stdio.h>
#include <string.h>

#include "check.h"
#include "lend.h"

uint8_t report[KHL_REPORT];
uint8_t reply[KHL_IMAGE_MOST];
size_t reply_length;

enum call { RECEIVE, BUILD_KSM, BUILD_RSI, ASK, GIVE_UP, START, LOAD, REMOVE, CALLS };
enum { ANSWERS = 14 };
static unsigned long given[CALLS][ANSWERS];

/* ---- what holds after every call */

/* With a refusal the report is zero throughout, with 4 all but letters and length, with 0 what only receive tells. */
static void report_in_order(enum call call, uint32_t answer) {
    static const uint8_t zeros[KHL_REPORT];
    size_t from = answer == KHL_DONE || answer == KHL_ERROR ? KHL_REPORT_CLASS : 0;
    if (answer == KHL_DONE && call == RECEIVE)
        from = KHL_REPORT_ZERO;
    same("a part of the report that has to be zero", report + from, zeros + from, KHL_REPORT - from);
    if (call != RECEIVE)
        holds(khl_report_letters(report) == 0, "letters without an error");
    holds(changed_only(REPORT, 0, KHL_REPORT), "bytes beside the report were written");
}

/* Whether the bytes from one place to another stand in a record, behind identity, key name and top key. */
static int within(const uint8_t *record, const uint8_t *from, const uint8_t *to) {
    return record != NULL && from >= record + KHL_RECORD_NEXT && to <= record + KHL_RECORD;
}

/* A changed image differs in one record alone, and there not in identity, key name and top key. */
static void image_in_order(const uint8_t *now, size_t length, uint32_t answer) {
    const uint8_t *before = as_lent(IMAGE);
    size_t first = 0, last = length;
    int slot = 0;
    holds(changed_only(IMAGE, 0, length), "bytes beside the image were written");
    while (first < length && now[first] == before[first])
        first++;
    if (first == length)
        return;
    holds(answer == KHL_DONE, "the image changed with answer %" PRIu32, answer);
    if (answer != KHL_DONE)
        return;
    while (now[last - 1] == before[last - 1])
        last--;
    while (slot < KHL_PARTNERS && !within(khl_image_record(before, slot), before + first, before + last))
        slot++;
    holds(slot < KHL_PARTNERS, "the image changed in bytes %zu to %zu", first, last);
}

/* Holds all that; `written` is the buffer for a reply or a new image, or ROLES where there is none. */
static uint32_t after(enum call call, uint32_t answer, const uint8_t *lent_report, enum role written,
                      const uint8_t *buffer) {
    memcpy(report, lent_report, KHL_REPORT);
    report_in_order(call, answer);
    holds(answer < ANSWERS, "answer %" PRIu32 " is none of the paper", answer);
    if (answer < ANSWERS)
        given[call][answer]++;
    for (enum role role = TEXT; role <= SERVICE; role++)
        holds(changed_only(role, 0, 0), "a lent text, name, key or request was written");
    reply_length = khl_report_length(report);
    if (written == ROLES) {
        holds(reply_length == 0, "a length without a buffer");
        return answer;
    }
    holds(reply_length <= sizeof reply, "a length of %zu", reply_length);
    holds(changed_only(written, 0, reply_length), "more than the %zu bytes of the reply were written", reply_length);
    memcpy(reply, buffer, reply_length);
    return answer;
}

/* ---- the calls */

static uint8_t *lend_text(enum role role, const char *text) { return lend(role, text, strlen(text)); }

/* roles that a call does not use are lent all the same, so that `after` can look at every one */
static void lend_nothing(void) {
    for (enum role role = IMAGE; role < ROLES; role++)
        lend(role, NULL, 0);
}

static uint8_t *lend_image(const struct image *image) {
    lend_nothing();
    return lend(IMAGE, image->bytes, image->length);
}

/* the image after a call that may change it */
static uint32_t with_image(struct image *image, const uint8_t *lent, uint32_t answer) {
    image_in_order(lent, image->length, answer);
    memcpy(image->bytes, lent, image->length);
    return answer;
}

/* the new image after a custodian's call, which leaves the old one */
static uint32_t with_new(struct image *made, uint32_t answer) {
    holds(changed_only(IMAGE, 0, 0), "the old image was written");
    if (answer == KHL_DONE) {
        memset(made, 0, sizeof *made);
        memcpy(made->bytes, reply, reply_length);
        made->length = reply_length;
    }
    return answer;
}

uint32_t receive(struct image *image, const void *text, size_t length, size_t room) {
    uint8_t *i = lend_image(image), *t = lend(TEXT, text, length), *r = lend(REPLY, NULL, room);
    uint8_t *p = lend(REPORT, NULL, KHL_REPORT);
    uint32_t answer = khl_receive(i, image->length, t, length, r, room, p);
    return with_image(image, i, after(RECEIVE, answer, p, REPLY, r));
}

uint32_t build_ksm(struct image *image, const char *partner, const uint8_t *request, size_t length, size_t room) {
    uint8_t *i = lend_image(image), *n = lend_text(PARTNER, partner), *q = lend(REQUEST, request, length);
    uint8_t *r = lend(REPLY, NULL, room), *p = lend(REPORT, NULL, KHL_REPORT);
    uint32_t answer = khl_build_ksm(i, image->length, n, strlen(partner), q, length, r, room, p);
    return with_image(image, i, after(BUILD_KSM, answer, p, REPLY, r));
}

uint32_t build_rsi(const struct image *image, const char *partner, const char *service, size_t room) {
    uint8_t *i = lend_image(image), *n = lend_text(PARTNER, partner), *s = lend_text(SERVICE, service);
    uint8_t *r = lend(REPLY, NULL, room), *p = lend(REPORT, NULL, KHL_REPORT);
    uint32_t answer = khl_build_rsi(i, image->length, n, strlen(partner), s, strlen(service), r, room, p);
    holds(changed_only(IMAGE, 0, 0), "the image was written");
    return after(BUILD_RSI, answer, p, REPLY, r);
}

uint32_t ask(const struct image *image, const char *partner, size_t room) {
    uint8_t *i = lend_image(image), *n = lend_text(PARTNER, partner), *r = lend(REPLY, NULL, room);
    uint8_t *p = lend(REPORT, NULL, KHL_REPORT);
    uint32_t answer = khl_ask(i, image->length, n, strlen(partner), r, room, p);
    holds(changed_only(IMAGE, 0, 0), "the image was written");
    return after(ASK, answer, p, REPLY, r);
}

uint32_t give_up(struct image *image, const char *partner) {
    uint8_t *i = lend_image(image), *n = lend_text(PARTNER, partner), *p = lend(REPORT, NULL, KHL_REPORT);
    uint32_t answer = khl_give_up(i, image->length, n, strlen(partner), p);
    return with_image(image, i, after(GIVE_UP, answer, p, ROLES, NULL));
}

uint32_t start(const char *own, size_t room, struct image *made) {
    lend_nothing();
    uint8_t *n = lend_text(NAME, own), *o = lend(OUT, NULL, room), *p = lend(REPORT, NULL, KHL_REPORT);
    uint32_t answer = khl_start(n, strlen(own), o, room, p);
    return with_new(made, after(START, answer, p, OUT, o));
}

uint32_t load(const struct image *image, const char *partner, const char *name, const uint8_t *key, size_t bytes,
              size_t room, struct image *made) {
    uint8_t *i = lend_image(image), *n = lend_text(PARTNER, partner), *m = lend_text(NAME, name);
    uint8_t *k = lend(KEY, key, bytes), *o = lend(OUT, NULL, room), *p = lend(REPORT, NULL, KHL_REPORT);
    uint32_t answer = khl_load(i, image->length, n, strlen(partner), m, strlen(name), k, bytes, o, room, p);
    return with_new(made, after(LOAD, answer, p, OUT, o));
}

uint32_t take_out(const struct image *image, const char *partner, size_t room, struct image *made) {
    uint8_t *i = lend_image(image), *n = lend_text(PARTNER, partner), *o = lend(OUT, NULL, room);
    uint8_t *p = lend(REPORT, NULL, KHL_REPORT);
    uint32_t answer = khl_remove(i, image->length, n, strlen(partner), o, room, p);
    return with_new(made, after(REMOVE, answer, p, OUT, o));
}

/* ---- what a test holds the last call to */

void answers(uint32_t answer, uint32_t wanted) {
    holds(answer == wanted, "the answer is %" PRIu32 ", not %" PRIu32, answer, wanted);
}

void reports(unsigned letters, size_t length, enum khl_class class_read, enum khl_service service, const uint64_t *iv,
             const char *date) {
    uint8_t wanted[KHL_REPORT] = {0};
    khl_put_number(wanted + KHL_REPORT_LETTERS, 2, letters);
    khl_put_number(wanted + KHL_REPORT_LENGTH, 2, length);
    wanted[KHL_REPORT_CLASS] = (uint8_t)class_read;
    wanted[KHL_REPORT_SERVICE] = (uint8_t)service;
    wanted[KHL_REPORT_IV_PRESENT] = iv != NULL;
    wanted[KHL_REPORT_DATE_PRESENT] = date != NULL;
    if (iv != NULL)
        khl_put_number(wanted + KHL_REPORT_IV, 8, *iv);
    if (date != NULL)
        memcpy(wanted + KHL_REPORT_DATE, date, KHL_DATE);
    same("the report", report, wanted, KHL_REPORT);
}

void replies(const char *text, size_t length) {
    int shown = reply_length > 0 && reply[0] == 'C' ? (int)reply_length : 0;
    holds(reply_length == length, "the reply has %zu bytes, not %zu %.*s", reply_length, length, shown,
          (const char *)reply);
    if (reply_length == length)
        same("the reply", reply, text, length);
}

void all_answers_given(void) {
    static const char *const names[CALLS] = {"receive", "build_ksm", "build_rsi", "ask",
                                             "give_up", "start",     "load",      "remove"};
    static const unsigned wanted[CALLS] = {
        [RECEIVE] = 1 << 0 | 1 << 1 | 1 << 2 | 1 << 3 | 1 << 4 | 1 << 5 | 1 << 6 | 1 << 13,
        [BUILD_KSM] = 1 << 0 | 1 << 3 | 1 << 6 | 1 << 7 | 1 << 8 | 1 << 11 | 1 << 12 | 1 << 13,
        [BUILD_RSI] = 1 << 0 | 1 << 3 | 1 << 6 | 1 << 12 | 1 << 13,
        [ASK] = 1 << 0 | 1 << 3 | 1 << 6 | 1 << 13,
        [GIVE_UP] = 1 << 0 | 1 << 3 | 1 << 5 | 1 << 13,
        [START] = 1 << 0 | 1 << 6 | 1 << 10,
        [LOAD] = 1 << 0 | 1 << 6 | 1 << 9 | 1 << 10 | 1 << 11 | 1 << 12 | 1 << 13,
        [REMOVE] = 1 << 0 | 1 << 3 | 1 << 6 | 1 << 13,
    };
    printf("how often each answer was given\n%-10s", "");
    for (int answer = 0; answer < ANSWERS; answer++)
        printf(" %5d", answer);
    putchar('\n');
    for (int call = 0; call < CALLS; call++) {
        printf("%-10s", names[call]);
        for (int answer = 0; answer < ANSWERS; answer++) {
            printf(" %5lu", given[call][answer]);
            trying("%s, answer %d", names[call], answer);
            holds((given[call][answer] > 0) == (wanted[call] >> answer & 1), "given %lu times", given[call][answer]);
        }
        putchar('\n');
    }
}
