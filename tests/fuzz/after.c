#include "after.h"

#include <inttypes.h>
#include <stdio.h>
#include <stdlib.h>
#include <string.h>

#include "../seal.h"
#include "must.h"

static uint8_t reply[KHL_ROOM], report[KHL_REPORT];

static uint32_t ask(const struct image *image, struct slice whom) {
    return khl_ask(image->bytes, image->length, whom.bytes, whom.length, reply, sizeof reply, report);
}

static uint32_t receive(struct image *image, const uint8_t *text, size_t length) {
    return khl_receive(image->bytes, image->length, text, length, reply, sizeof reply, report);
}

/* The contents of the first field of that tag; empty where there is none. */
static struct slice contents_of(struct slice text, const char *tag) {
    size_t length = strlen(tag);
    for (size_t at = 0; at + length <= text.length; at++)
        if (memcmp(text.bytes + at, tag, length) == 0) {
            size_t from = at + length, to = from;
            while (to < text.length && text.bytes[to] != ' ')
                to++;
            return (struct slice){text.bytes + from, to - from};
        }
    return (struct slice){text.bytes, 0};
}

static uint32_t count_of(struct slice text, const char *tag) {
    char digits[9] = {0};
    struct slice count = contents_of(text, tag);
    memcpy(digits, count.bytes, count.length < 8 ? count.length : 8);
    return (uint32_t)strtoul(digits, NULL, 10);
}

/* whether two records are equal in the bytes from one place to another */
static int equal(const uint8_t *left, const uint8_t *right, int from, int to) {
    return memcmp(left + from, right + from, (size_t)(to - from)) == 0;
}

/* ---- the changes of a record */

static int wiped(const uint8_t *record) {
    static const uint8_t none[KHL_SET];
    return khl_record_phase(record) == KHL_PHASE_BROKEN && memcmp(khl_record_outgoing(record), none, sizeof none) == 0;
}

static void received(const uint8_t *old, const uint8_t *new, struct slice text, int class_read) {
    switch (class_read) {
    case KHL_CLASS_KSM:
        must(equal(old, new, 0, KHL_RECORD_EXPECTED) && equal(old, new, KHL_RECORD_PHASE, KHL_RECORD_INCOMING),
             "a KSM's changes");
        must(count_of(text, " CTP/") >= khl_record_expected(old) &&
                 count_of(text, " CTP/") + 1 == khl_record_expected(new),
             "expected is %u after count %u", khl_record_expected(new), count_of(text, " CTP/"));
        break;
    case KHL_CLASS_RSM:
        must(khl_record_phase(old) == KHL_PHASE_WAITING && khl_record_phase(new) == KHL_PHASE_CONFIRMED,
             "an RSM's phases");
        must(equal(old, new, 0, KHL_RECORD_PHASE) && equal(old, new, KHL_RECORD_OUTGOING, KHL_RECORD),
             "an RSM's changes");
        break;
    case KHL_CLASS_ESM:
        must(khl_record_phase(old) == KHL_PHASE_WAITING && wiped(new), "an ESM's phases");
        must(equal(old, new, 0, KHL_RECORD_NEXT) && equal(old, new, KHL_RECORD_EXPECTED, KHL_RECORD_PHASE) &&
                 equal(old, new, KHL_RECORD_INCOMING, KHL_RECORD),
             "an ESM's changes");
        must(khl_record_next(new) >= khl_record_next(old), "an ESM lowers the send count");
        break;
    default: must(equal(old, new, 0, KHL_RECORD), "an RSI's changes");
    }
}

/* an ESM of ours has the letters that are told and, with P, the count expected and the one received */
static void erred(const uint8_t *record, struct slice text, const struct outcome *o) {
    struct slice esm = {o->written.bytes, o->length}, letters = contents_of(esm, " ERF/");
    char wanted[10] = {0};
    for (unsigned i = 0, at = 0; i < 9; i++)
        if (o->letters >> i & 1)
            wanted[at++] = "ABFIKMOPU"[i];
    must(letters.length == strlen(wanted) && memcmp(letters.bytes, wanted, letters.length) == 0,
         "other letters than are told");
    if (o->letters & KHL_LETTER_P)
        must(count_of(esm, " CTP/") == khl_record_expected(record) && count_of(esm, " CTR/") == count_of(text, " CTP/"),
             "made-up counts");
    else
        must(count_of(esm, " CTP/") == 0 && count_of(esm, " CTR/") == 0, "counts without a P");
}

static void built(const uint8_t *old, const uint8_t *new) {
    must(equal(old, new, 0, KHL_RECORD_NEXT) && equal(old, new, KHL_RECORD_EXPECTED, KHL_RECORD_PHASE) &&
             equal(old, new, KHL_RECORD_INCOMING, KHL_RECORD),
         "the changes of building");
    must(khl_record_phase(old) != KHL_PHASE_WAITING && khl_record_phase(new) == KHL_PHASE_WAITING,
         "the phases of building");
    must(khl_record_next(new) == khl_record_next(old) + 1, "the send count of building");
}

static void given_up(const uint8_t *old, const uint8_t *new) {
    must(khl_record_phase(old) == KHL_PHASE_WAITING && wiped(new), "the phases of giving up");
    must(equal(old, new, 0, KHL_RECORD_PHASE) && equal(old, new, KHL_RECORD_INCOMING, KHL_RECORD),
         "the changes of giving up");
}

/* ---- the partner's end */

/* NOS stands there where it was asked for, and each KD is a key of the request, sealed as our own text would have it */
static void sealed(const uint8_t *record, const struct outcome *o, uint8_t *request) {
    struct slice text = {o->written.bytes, o->length}, org = contents_of(text, " ORG/"),
                 rcv = contents_of(text, " RCV/");
    struct ends ends = {{org.bytes, org.length}, {rcv.bytes, rcv.length}};
    int notarized = khl_request_notarized(request), nos = contents_of(text, " NOS/").bytes != text.bytes;
    must(nos == notarized, "NOS is %d where notarized is %d", nos, notarized);
    for (int i = 0; i < khl_request_count(request); i++) {
        char digits[17];
        struct slice kd = contents_of(text, " KD/");
        uint64_t key = khl_number(khl_request_key(request, i), KHL_KEY);
        snprintf(digits, sizeof digits, "%016" PRIX64,
                 seal(record, notarized ? &ends : NULL, count_of(text, " CTP/"), key));
        must(kd.length >= 16 && memcmp(kd.bytes, digits, 16) == 0, "a key is not sealed as it should be");
        text = (struct slice){kd.bytes, (size_t)(o->written.bytes + o->length - kd.bytes)};
    }
}

/* the partner is told the IV and the date that were asked for */
static void told(uint8_t *request) {
    int iv = khl_request_iv_kind(request) != KHL_IV_NONE, date = khl_request_dated(request);
    must(khl_report_iv_present(report) == iv && khl_report_date_present(report) == date,
         "an IV or date too many or too few");
    must(!iv || memcmp(khl_report_iv(report), khl_request_iv(request), KHL_KEY) == 0, "another IV");
    must(!date || memcmp(khl_report_date(report), khl_request_date(request), KHL_DATE) == 0, "another date");
}

/* A partner that has just loaded us takes our KSM, holds the very keys and names that we sent, and we take its RSM; the
 * same KSM once more is P. */
static void exchanged(struct image *ours, const uint8_t *record, const struct outcome *o, const uint8_t *asked) {
    static struct image theirs;
    struct slice us = {khl_image_own(ours->bytes), khl_name_length(khl_image_own(ours->bytes))};
    uint8_t request[KHL_REQUEST];
    memcpy(request, asked, sizeof request);
    sealed(record, o, request);
    make_partner(&theirs, ours, record);
    trying("our KSM at the partner");
    must(receive(&theirs, o->written.bytes, o->length) == KHL_DONE && khl_report_class(report) == KHL_CLASS_KSM,
         "it is not taken");
    told(request);
    const uint8_t *held = record_of(&theirs, us.bytes, us.length);
    must(memcmp(khl_record_incoming(held), khl_record_outgoing(record), KHL_SET) == 0, "other keys are held");
    must(khl_record_expected(held) == khl_record_next(record), "expected is not our send count");
    uint8_t confirmation[KHL_ROOM];
    size_t length = khl_report_length(report);
    memcpy(confirmation, reply, length);
    must(receive(&theirs, o->written.bytes, o->length) == KHL_ERROR && khl_report_letters(report) == KHL_LETTER_P,
         "it is taken twice");
    trying("the partner's RSM");
    must(receive(ours, confirmation, length) == KHL_DONE && khl_report_class(report) == KHL_CLASS_RSM,
         "it is not taken");
    must(khl_record_phase(record) == KHL_PHASE_CONFIRMED, "it does not confirm");
}

/* A partner that has just loaded us reads what we wrote: an RSI with this service, an RSM or ESM when nothing waits. */
static void read_there(const struct image *ours, const uint8_t *record, const struct outcome *o, enum call call) {
    static struct image theirs;
    make_partner(&theirs, ours, record);
    trying("our reply at the partner");
    uint32_t answer = receive(&theirs, o->written.bytes, o->length);
    must(answer == (call == BUILD_RSI ? KHL_DONE : KHL_NONE_WAITING), "the answer is %u", (unsigned)answer);
}

/* ---- all of it */

static void made_image(const struct outcome *o, const struct input *input, struct slice whom) {
    uint32_t answer = ask(&o->written, whom);
    trying("the new image");
    must(answer == (input->call == LOAD ? KHL_DONE : KHL_NO_PARTNER), "ask answers %u", (unsigned)answer);
    if (input->call != LOAD)
        return;
    static const uint8_t rest[KHL_RECORD - KHL_RECORD_NEXT] = {0, 0, 0, 1, 0, 0, 0, 1};
    struct slice name = input->slices[1], key = input->slices[2];
    must(memcmp(khl_record_name(reply), name.bytes, name.length) == 0 &&
             khl_record_form(reply) == key.length / KHL_KEY &&
             memcmp(khl_record_top(reply), key.bytes, key.length) == 0,
         "other than what was loaded");
    must(memcmp(reply + KHL_RECORD_NEXT, rest, sizeof rest) == 0, "a loaded entry that is not fresh");
}

/* the record of the call's partner changed as the call says */
static void changed(const struct outcome *o, const struct input *input, const struct image *before, struct slice whom) {
    static struct image old, new;
    old = *before, new = o->image;
    uint8_t *was = record_of(&old, whom.bytes, whom.length), *is = record_of(&new, whom.bytes, whom.length);
    must(was != NULL && is != NULL, "a partner that is not in the table");
    if (o->answer == KHL_DONE && input->call == RECEIVE)
        received(was, is, input->slices[0], khl_report_class(o->report));
    else if (o->answer == KHL_DONE && input->call == BUILD_KSM)
        built(was, is);
    else if (o->answer == KHL_DONE && input->call == GIVE_UP)
        given_up(was, is);
    else
        must(equal(was, is, 0, KHL_RECORD), "a record changed");
    must(ask(&new, whom) == KHL_DONE && memcmp(reply, is, KHL_RECORD) == 0, "ask reads something else back");
    if (o->answer == KHL_ERROR)
        erred(is, input->slices[0], o);
    if (input->call == ASK)
        must(memcmp(o->written.bytes, is, KHL_RECORD) == 0, "ask gives something else");
    else if (input->call == BUILD_KSM)
        exchanged(&new, is, o, input->slices[1].bytes);
    else if (o->length > 0)
        read_there(&new, is, o, input->call);
}

void look_after(const struct outcome *o, const struct input *input, const struct image *before) {
    struct slice whom = input->call == RECEIVE ? contents_of(input->slices[0], " ORG/") : input->slices[0];
    if (input->call != START) {
        must((ask(before, whom) == KHL_BAD_IMAGE) == (o->answer == KHL_BAD_IMAGE),
             "ask does not agree whether the image is legal");
        must((ask(&o->image, whom) == KHL_BAD_IMAGE) == (o->answer == KHL_BAD_IMAGE), "the image is no longer legal");
    }
    if (o->answer != KHL_DONE && o->answer != KHL_ERROR)
        return;
    if (makes_image(input->call))
        made_image(o, input, whom);
    else
        changed(o, input, before, whom);
}
