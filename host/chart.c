/* Two cards exchange keys over a line that loses, delays, repeats and reorders: a fixed story, as a chart of messages,
 * phases and counts. Every step is held to the answer that document 01 gives it; the exit status is 0 only where the
 * story ended as it must. */
#include <inttypes.h>
#include <stdio.h>
#include <stdlib.h>
#include <string.h>

#include "keys.h"
#include "khlongsit.h"
#include "words.h"

enum { MILL, HARBOR, CARDS, MESSAGES = 32 };

static const char *const names[CARDS] = {"MILL", "HARBOR"};

static struct card {
    uint8_t image[KHL_IMAGE_MOST];
    size_t length;
} cards[CARDS];

/* every message ever sent, by its number: the line may bring any of them at any time, or never */
static struct message {
    int from;
    size_t length;
    uint8_t text[KHL_ROOM];
} sent[MESSAGES];
static int messages, steps, wrong;

static const uint8_t *bytes_of(const char *text) { return (const uint8_t *)text; }
static int other(int card) { return card == MILL ? HARBOR : MILL; }

/* what a card's table has about the other */
static void ask(int card, uint8_t *record) {
    uint8_t report[KHL_REPORT];
    const char *partner = names[other(card)];
    uint32_t answer =
        khl_ask(cards[card].image, cards[card].length, bytes_of(partner), strlen(partner), record, KHL_ROOM, report);
    if (answer == KHL_DONE)
        return;
    printf("WRONG: %s does not know %s\n", names[card], partner);
    exit(EXIT_FAILURE);
}

/* ---- the chart */

static void heading(void) {
    printf("%-80s %-19s %s\n", "", "MILL about HARBOR", "HARBOR about MILL");
    printf("%-3s %-17s %-24s %-33s", "", "message", "on the line", "answer");
    printf(" %-9s %4s %4s %-9s %4s %4s\n", "phase", "send", "exp.", "phase", "send", "exp.");
}

/* a row: the message by its number, sender, receiver and class; what the line did; the answer; both ends after it, with
 * their phase, next send and expected count */
static void row(int number, const char *event, const char *answer) {
    const struct message *m = &sent[number];
    const char *class_of = (const char *)m->text + strlen("CSM(MCL/");
    printf("%-3d m%-2d %.3s to %-6s %-24s %-33s", ++steps, number + 1, class_of, names[other(m->from)], event, answer);
    for (int card = MILL; card < CARDS; card++) {
        uint8_t record[KHL_ROOM];
        ask(card, record);
        printf(" %-9s %4" PRIu32 " %4" PRIu32, phase_word(khl_record_phase(record)), khl_record_next(record),
               khl_record_expected(record));
    }
    putchar('\n');
}

static void text_of(int number) {
    printf("    m%-2d %.*s\n", number + 1, (int)sent[number].length, (const char *)sent[number].text);
}

/* the story has to go this way */
static void expect(uint32_t answer, uint32_t wanted) {
    if (answer == wanted)
        return;
    printf("    WRONG: the answer has to be %" PRIu32 " %s\n", wanted, answer_words(wanted));
    wrong++;
}

/* ---- what can happen */

/* a message that a card has just written gets its number */
static int keep(int from, const uint8_t *reply, const uint8_t *report) {
    struct message *m = &sent[messages];
    if (messages == MESSAGES)
        exit(EXIT_FAILURE);
    m->from = from;
    m->length = khl_report_length(report);
    memcpy(m->text, reply, m->length);
    return messages++;
}

static void load(int card, const uint8_t *key, size_t bytes) {
    uint8_t empty[KHL_IMAGE_MOST], report[KHL_REPORT];
    const char *own = names[card], *partner = names[other(card)], *name = "TOPKEY7";
    expect(khl_start(bytes_of(own), strlen(own), empty, sizeof empty, report), KHL_DONE);
    expect(khl_load(empty, khl_report_length(report), bytes_of(partner), strlen(partner), bytes_of(name), strlen(name),
                    key, bytes, cards[card].image, KHL_IMAGE_MOST, report),
           KHL_DONE);
    cards[card].length = khl_report_length(report);
}

/* the row of a message just built */
static int built(int from, const char *event, uint32_t answer, const uint8_t *reply, const uint8_t *report) {
    char account[64];
    int number = keep(from, reply, report);
    describe(account, sizeof account, answer, report);
    row(number, event, account);
    expect(answer, KHL_DONE);
    text_of(number);
    return number;
}

static int build_rsi(int from, const char *service, const char *event) {
    uint8_t reply[KHL_ROOM], report[KHL_REPORT];
    const char *partner = names[other(from)];
    uint32_t answer = khl_build_rsi(cards[from].image, cards[from].length, bytes_of(partner), strlen(partner),
                                    bytes_of(service), strlen(service), reply, sizeof reply, report);
    return built(from, event, answer, reply, report);
}

/* a key message with one or two fresh keys and an enciphered IV; the keys are no random ones, so that the chart stays
 * the same */
static int build_ksm(int from, int keys, const char *event) {
    static uint64_t fresh = 0x1F0E2D3C4B5A6978;
    uint8_t request[KHL_REQUEST] = {0}, reply[KHL_ROOM], report[KHL_REPORT];
    const char *partner = names[other(from)];
    khl_request_put_count(request, keys);
    for (int i = 0; i < keys; i++) {
        khl_put_number(khl_request_key(request, i), KHL_KEY, fresh = khl_test_encipher(fresh, fresh));
        khl_request_put_flags(request, i, KHL_FLAG_IDK1);
        khl_put_name(khl_request_name(request, i), i == 0 ? "AUTH1" : "DATA1");
    }
    khl_request_put_iv_kind(request, KHL_IV_ENCIPHERED);
    khl_put_number(khl_request_iv(request), KHL_KEY, 0x1122334455667788);
    uint32_t answer = khl_build_ksm(cards[from].image, cards[from].length, bytes_of(partner), strlen(partner), request,
                                    sizeof request, reply, sizeof reply, report);
    return built(from, event, answer, reply, report);
}

/* The line brings a message to its receiver. Gives the number of the reply; -1 where there is none. */
static int bring(int number, const char *event, uint32_t wanted) {
    if (number < 0) {
        printf("    WRONG: there is no such message\n");
        return wrong++, -1;
    }
    const struct message *m = &sent[number];
    struct card *to = &cards[other(m->from)];
    uint8_t reply[KHL_ROOM], report[KHL_REPORT];
    char account[64];
    uint32_t answer = khl_receive(to->image, to->length, m->text, m->length, reply, sizeof reply, report);
    int reply_number = khl_report_length(report) > 0 ? keep(other(m->from), reply, report) : -1;
    describe(account, sizeof account, answer, report);
    row(number, event, account);
    expect(answer, wanted);
    if (reply_number >= 0)
        text_of(reply_number);
    return reply_number;
}

static void lose(int number, const char *event) { row(number, event, "-"); }

/* ---- the story */

static void story(void) {
    bring(build_rsi(HARBOR, "KD.IV", "HARBOR asks for keys"), "arrives", KHL_DONE);

    int first = build_ksm(MILL, 2, "MILL sends two keys");
    lose(first, "LOST");
    int confirms = bring(first, "sent again, arrives", KHL_DONE);
    int late = bring(first, "REPEATED by the line", KHL_ERROR);
    bring(confirms, "arrives", KHL_DONE);
    bring(late, "arrives LATE", KHL_NONE_WAITING);

    int second = build_ksm(MILL, 1, "MILL sends one new key");
    confirms = bring(second, "arrives", KHL_DONE);
    int overtakes = bring(second, "sent again, arrives", KHL_ERROR);
    bring(overtakes, "arrives FIRST: reordered", KHL_DONE);
    bring(confirms, "arrives behind it", KHL_NONE_WAITING);

    int third = build_ksm(MILL, 2, "MILL sends two keys anew");
    confirms = bring(third, "arrives", KHL_DONE);
    int old = bring(second, "an OLD one comes again", KHL_ERROR);
    bring(confirms, "arrives", KHL_DONE);
    bring(old, "arrives LATE", KHL_NONE_WAITING);

    int back = build_ksm(HARBOR, 1, "HARBOR sends a key back");
    confirms = bring(back, "arrives", KHL_DONE);
    lose(confirms, "LOST");
    bring(bring(back, "sent again, arrives", KHL_ERROR), "arrives", KHL_DONE);
    bring(bring(build_ksm(HARBOR, 1, "HARBOR sends a new key"), "arrives", KHL_DONE), "arrives", KHL_DONE);
}

/* whether the keys that one card says are confirmed are those that the other holds, with their names */
static void compare(int from) {
    uint8_t ours[KHL_ROOM], theirs[KHL_ROOM];
    ask(from, ours);
    ask(other(from), theirs);
    const uint8_t *outgoing = khl_record_outgoing(ours), *incoming = khl_record_incoming(theirs);
    int equal = memcmp(outgoing, incoming, KHL_SET) == 0;
    int confirmed = khl_record_phase(ours) == KHL_PHASE_CONFIRMED;
    printf("%s to %s: %s, the keys at both ends are %s\n", names[from], names[other(from)],
           phase_word(khl_record_phase(ours)), equal ? "equal" : "DIFFERENT");
    for (int i = 0; i < khl_set_count(outgoing); i++) {
        const uint8_t *name = khl_set_name(outgoing, i);
        printf("    %.*s: check value %06" PRIX32 " at %s, %06" PRIX32 " at %s\n", (int)khl_name_length(name),
               (const char *)name, check_value(khl_set_key(outgoing, i), KHL_KEY), names[from],
               check_value(khl_set_key(incoming, i), KHL_KEY), names[other(from)]);
    }
    wrong += !equal || !confirmed;
}

int main(void) {
    static const uint8_t pair[] = {0x01, 0x23, 0x45, 0x67, 0x89, 0xAB, 0xCD, 0xEF,
                                   0xFE, 0xDC, 0xBA, 0x98, 0x76, 0x54, 0x32, 0x10};
    load(MILL, pair, sizeof pair);
    load(HARBOR, pair, sizeof pair);
    printf("Two cards, MILL and HARBOR, loaded with one key pair (check value %06" PRIX32 "), on a bad line.\n\n",
           check_value(pair, sizeof pair));
    heading();
    story();
    putchar('\n');
    compare(MILL);
    compare(HARBOR);
    if (wrong == 0)
        printf("Both are confirmed.\n");
    return wrong == 0 && fflush(stdout) == 0 ? EXIT_SUCCESS : EXIT_FAILURE;
}
