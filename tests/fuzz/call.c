#include "call.h"

#include <string.h>

#include "lent.h"
#include "must.h"

/* ---- what holds after every call */

#define ANSWER(answer) (1u << (answer))

static void answer_in_order(const struct outcome *o, enum call call, size_t room) {
    const unsigned always = ANSWER(KHL_DONE) | ANSWER(KHL_NO_ROOM) | ANSWER(KHL_BAD_IMAGE),
                   found = always | ANSWER(KHL_NO_PARTNER);
    const unsigned given[CALLS] = {
        [RECEIVE] =
            found | ANSWER(KHL_NO_MESSAGE) | ANSWER(KHL_NOT_FOR_US) | ANSWER(KHL_ERROR) | ANSWER(KHL_NONE_WAITING),
        [BUILD_KSM] =
            found | ANSWER(KHL_WAITING) | ANSWER(KHL_COUNT_SPENT) | ANSWER(KHL_BAD_PARITY) | ANSWER(KHL_BAD_REQUEST),
        [BUILD_RSI] = found | ANSWER(KHL_BAD_REQUEST),
        [ASK] = found,
        [GIVE_UP] = found | ANSWER(KHL_NONE_WAITING),
        [START] = (always | ANSWER(KHL_BAD_IDENTITY)) & ~ANSWER(KHL_BAD_IMAGE),
        [LOAD] = always | ANSWER(KHL_TABLE_FULL) | ANSWER(KHL_BAD_IDENTITY) | ANSWER(KHL_BAD_PARITY) |
                 ANSWER(KHL_BAD_REQUEST),
        [REMOVE] = found,
    };
    size_t least = call == GIVE_UP ? 0 : makes_image(call) ? KHL_IMAGE_MOST : KHL_ROOM;
    must(o->answer <= KHL_BAD_IMAGE && given[call] & ANSWER(o->answer), "the answer is %u", (unsigned)o->answer);
    if (room < least)
        must(o->answer == KHL_NO_ROOM || o->answer == KHL_BAD_IMAGE, "the answer is %u in a room of %zu",
             (unsigned)o->answer, room);
    else
        must(o->answer != KHL_NO_ROOM, "the answer is 6 in a room of %zu", room);
}

static int zero(const uint8_t *bytes, size_t length) {
    while (length > 0 && bytes[length - 1] == 0)
        length--;
    return length == 0;
}

/* with 0 only receive tells more than a length, and what it tells belongs to the class */
static void told_in_order(const struct outcome *o) {
    const uint8_t *r = o->report;
    int class_read = khl_report_class(r), service = khl_report_service(r);
    int iv = khl_report_iv_present(r), date = khl_report_date_present(r);
    must(class_read >= KHL_CLASS_RSI && class_read <= KHL_CLASS_ESM, "class %d", class_read);
    must((service != KHL_SERVICE_NONE) == (class_read == KHL_CLASS_RSI) && service <= KHL_SERVICE_PAIR_KD_IV,
         "service %d of class %d", service, class_read);
    must((o->letters != 0) == (class_read == KHL_CLASS_ESM) && o->letters < 512, "letters %u of class %d", o->letters,
         class_read);
    must((o->length != 0) == (class_read == KHL_CLASS_KSM), "a reply of %zu bytes to class %d", o->length, class_read);
    must(iv <= (class_read == KHL_CLASS_KSM) && date <= (class_read == KHL_CLASS_KSM), "IV %d, date %d, class %d", iv,
         date, class_read);
    must(iv || zero(khl_report_iv(r), KHL_KEY), "an IV that is not there");
    for (int i = 0; i < KHL_DATE; i++) {
        int digit = khl_report_date(r)[i];
        must(date ? digit >= '0' && digit <= '9' : digit == 0, "a bad date");
    }
    must(zero(r + KHL_REPORT_ZERO, KHL_REPORT - KHL_REPORT_ZERO), "the report's last bytes are not zero");
}

static void report_in_order(const struct outcome *o, enum call call) {
    const unsigned judged = KHL_LETTER_F | KHL_LETTER_M | KHL_LETTER_P;
    must(changed_only(REPORT, KHL_REPORT), "a byte beside the report was written");
    if (o->answer == KHL_ERROR) {
        must(zero(o->report + KHL_REPORT_CLASS, KHL_REPORT - KHL_REPORT_CLASS),
             "more than letters and length with answer 4");
        must(o->letters == KHL_LETTER_I || o->letters == KHL_LETTER_K || o->letters == KHL_LETTER_O ||
                 (o->letters != 0 && (o->letters & ~judged) == 0),
             "letters %u", o->letters);
    } else if (o->answer != KHL_DONE) {
        must(zero(o->report, KHL_REPORT), "the report of a refusal is not zero");
    } else if (call == RECEIVE) {
        told_in_order(o);
    } else {
        must(o->letters == 0 && zero(o->report + KHL_REPORT_CLASS, KHL_REPORT - KHL_REPORT_CLASS),
             "more than a length is told");
        must((o->length == 0) == (call == GIVE_UP), "a length of %zu", o->length);
    }
}

/* Whether the bytes from one place to another stand in a record, from the counts on. */
static int within(const uint8_t *record, const uint8_t *from, const uint8_t *to) {
    return record != NULL && from >= record + KHL_RECORD_NEXT && to <= record + KHL_RECORD;
}

/* Only receive, build a KSM and give up change the image, with answer 0, in one record, and there from the counts on.
 */
static void image_in_order(const struct outcome *o, enum call call) {
    const uint8_t *before = as_lent(IMAGE), *now = o->image.bytes;
    size_t length = o->image.length, first = 0, last = length;
    int slot = 0;
    must(changed_only(IMAGE, length), "a byte beside the image was written");
    while (first < length && now[first] == before[first])
        first++;
    if (first == length)
        return;
    must(o->answer == KHL_DONE && (call == RECEIVE || call == BUILD_KSM || call == GIVE_UP),
         "the image changed with answer %u", (unsigned)o->answer);
    while (now[last - 1] == before[last - 1])
        last--;
    while (slot < KHL_PARTNERS && !within(khl_image_record(before, slot), before + first, before + last))
        slot++;
    must(slot < KHL_PARTNERS, "the image changed from byte %zu to %zu", first, last);
}

static void written_in_order(const struct outcome *o, enum call call) {
    static const char *const replies[CALLS] = {[RECEIVE] = "RSM", [BUILD_KSM] = "KSM", [BUILD_RSI] = "RSI"};
    for (enum role role = FIRST; role <= THIRD; role++)
        must(changed_only(role, 0), "a slice that is lent to be read was written");
    must(changed_only(WRITTEN, o->length), "a byte beside the %zu of the reply was written", o->length);
    if (o->length == 0 || replies[call] == NULL)
        return;
    const char *class_word = o->answer == KHL_ERROR ? "ESM" : replies[call], *text = (const char *)o->written.bytes;
    must(o->length > 14 && o->length <= KHL_KSM_MOST, "a reply of %zu bytes", o->length);
    must(memcmp(text, "CSM(MCL/", 8) == 0 && memcmp(text + 8, class_word, 3) == 0 && text[11] == ' ',
         "the reply is no %s", class_word);
    must(memcmp(text + o->length - 2, " )", 2) == 0, "the reply's end");
}

/* ---- the call */

#define LENT(role) lent[role], lengths[role]

static void call_once(struct outcome *o, const struct input *input, const struct image *image, enum side side) {
    uint8_t *lent[ROLES];
    size_t lengths[ROLES] = {
        image->length, input->slices[0].length, input->slices[1].length, input->slices[2].length, input->room,
        KHL_REPORT};
    const uint8_t *bytes[ROLES] = {
        image->bytes, input->slices[0].bytes, input->slices[1].bytes, input->slices[2].bytes, NULL, NULL};
    for (enum role role = IMAGE; role < ROLES; role++)
        lent[role] = lend(side, role, bytes[role], lengths[role]);
    switch (input->call) {
    case RECEIVE: o->answer = khl_receive(LENT(IMAGE), LENT(FIRST), LENT(WRITTEN), lent[REPORT]); break;
    case BUILD_KSM:
        o->answer = khl_build_ksm(LENT(IMAGE), LENT(FIRST), LENT(SECOND), LENT(WRITTEN), lent[REPORT]);
        break;
    case BUILD_RSI:
        o->answer = khl_build_rsi(LENT(IMAGE), LENT(FIRST), LENT(SECOND), LENT(WRITTEN), lent[REPORT]);
        break;
    case ASK: o->answer = khl_ask(LENT(IMAGE), LENT(FIRST), LENT(WRITTEN), lent[REPORT]); break;
    case GIVE_UP: o->answer = khl_give_up(LENT(IMAGE), LENT(FIRST), lent[REPORT]); break;
    case START: o->answer = khl_start(LENT(FIRST), LENT(WRITTEN), lent[REPORT]); break;
    case LOAD:
        o->answer = khl_load(LENT(IMAGE), LENT(FIRST), LENT(SECOND), LENT(THIRD), LENT(WRITTEN), lent[REPORT]);
        break;
    default: o->answer = khl_remove(LENT(IMAGE), LENT(FIRST), LENT(WRITTEN), lent[REPORT]); break;
    }
    memcpy(o->report, lent[REPORT], KHL_REPORT);
    o->letters = khl_report_letters(o->report);
    o->length = khl_report_length(o->report);
    must(o->length <= input->room && o->length <= KHL_IMAGE_MOST, "a length of %zu in a room of %zu", o->length,
         input->room);
    o->image.length = image->length;
    memcpy(o->image.bytes, lent[IMAGE], image->length);
    o->written.length = o->length;
    memcpy(o->written.bytes, lent[WRITTEN], o->length);
    answer_in_order(o, input->call, input->room);
    report_in_order(o, input->call);
    image_in_order(o, input->call);
    written_in_order(o, input->call);
}

void make_call(struct outcome *outcome, const struct input *input, const struct image *image) {
    static struct outcome again;
    trying(call_name(input->call));
    call_once(&again, input, image, PAGE_BEFORE);
    call_once(outcome, input, image, PAGE_BEHIND);
    must(again.answer == outcome->answer && memcmp(again.report, outcome->report, KHL_REPORT) == 0,
         "two runs, two answers or reports");
    must(memcmp(again.image.bytes, outcome->image.bytes, outcome->image.length) == 0, "two runs, two images");
    must(memcmp(again.written.bytes, outcome->written.bytes, outcome->length) == 0, "two runs, two replies");
}
