/* How deep each call goes: it runs on a painted stack of 64 KiB, with a full table, in each of its longest ways; what
 * is no longer paint was used. The goal is KHL_STACK bytes. */
#define _DEFAULT_SOURCE
#include <stdio.h>
#include <string.h>
#include <ucontext.h>

#include "cards.h"
#include "check.h"
#include "tests.h"

enum { STACK = 64 * 1024, CASES = 7 };

static uint8_t stack[STACK];
static ucontext_t here, there;

/* what the calls are lent, beside the painted stack */
static struct image image, full;
static struct text texts[CASES];
static const struct text *text;
static uint8_t request[KHL_REQUEST], room[KHL_ROOM], out[KHL_IMAGE_MOST], told[KHL_REPORT];
static const uint8_t last[] = "LASTPARTNER", pair[16] = {0x01, 0x23, 0x45, 0x67, 0x89, 0xAB, 0xCD, 0xEF,
                                                         0xFE, 0xDC, 0xBA, 0x98, 0x76, 0x54, 0x32, 0x10};
static uint32_t answer;

static void no_call(void) {}
static void call_receive(void) {
    answer =
        khl_receive(image.bytes, image.length, (const uint8_t *)text->bytes, text->length, room, sizeof room, told);
}
static void call_build_ksm(void) {
    answer = khl_build_ksm(image.bytes, image.length, last, sizeof last - 1, request, sizeof request, room, sizeof room,
                           told);
}
static void call_build_rsi(void) {
    answer = khl_build_rsi(image.bytes, image.length, last, sizeof last - 1, (const uint8_t *)"*KK.KD.IV", 9, room,
                           sizeof room, told);
}
static void call_ask(void) {
    answer = khl_ask(image.bytes, image.length, last, sizeof last - 1, room, sizeof room, told);
}
static void call_give_up(void) { answer = khl_give_up(image.bytes, image.length, last, sizeof last - 1, told); }
static void call_start(void) { answer = khl_start(last, sizeof last - 1, out, sizeof out, told); }
static void call_load(void) {
    answer = khl_load(image.bytes, image.length, last, sizeof last - 1, (const uint8_t *)"TOP", 3, pair, sizeof pair,
                      out, sizeof out, told);
}
static void call_remove(void) {
    answer = khl_remove(image.bytes, image.length, last, sizeof last - 1, out, sizeof out, told);
}

/* The bytes of stack that a call used, below the place that it was called from. */
static size_t used_by(void (*call)(void), uint8_t paint) {
    size_t untouched = 0;
    memset(stack, paint, sizeof stack);
    getcontext(&there);
    there.uc_stack.ss_sp = stack;
    there.uc_stack.ss_size = sizeof stack;
    there.uc_link = &here;
    makecontext(&there, call, 0);
    swapcontext(&here, &there);
    while (untouched < sizeof stack && stack[untouched] == paint)
        untouched++;
    return sizeof stack - untouched;
}

/* The more of two runs, on two paints; a run before them binds the C library's functions. Each has the full image. */
static size_t depth(void (*call)(void), uint32_t wanted, const char *name) {
    static const uint8_t paints[] = {0xC3, 0xC3, 0x3C};
    size_t most = 0;
    for (int run = 0; run < 3; run++) {
        image = full;
        size_t bytes = used_by(call, paints[run]) - used_by(no_call, paints[run]);
        if (run > 0 && bytes > most)
            most = bytes;
    }
    trying("the stack of khl_%s", name);
    holds(answer == wanted, "the answer is %u, not %u", (unsigned)answer, (unsigned)wanted);
    return most;
}

/* a KSM with all that it can have, notarized or not, good or with all the errors that are judged together */
static void write_ksm(struct text *to, const uint8_t *record, uint32_t count, int notarized, int good) {
    begin_ksm(to, "OURS", (const char *)last, notarized);
    add_kd(to, record, count, 0x133457799BBCDFF1, ".P.ABCDEFGHIJKLMNOP.TOP");
    add_kd(to, record, count, 0x0123456789ABCDEF, ".P.ABCDEFGHIJKLMNOP.TOP");
    add(to, "IV/%c0123456789ABCDEF EDK/%c40229235959 CTP/%u ", good ? 'E' : 'X', good ? '8' : '9', (unsigned)count);
    end_with_mac(to, 0x133457799BBCDFF1 ^ 0x0123456789ABCDEF, good ? 0 : 1);
}

static void make_full(void) {
    make_card(&full, "OURS");
    fill_table(&full);
    uint8_t *record = record_of(&full, "P64");
    khl_put_name(record, (const char *)last);
    put_top(record, PAIR, LEFT, RIGHT);
    put_sending(record, 99999990, KHL_PHASE_WAITING, 2);
    put_expected(record, 99999990);
    write_ksm(&texts[0], record, 99999998, 0, 1);
    write_ksm(&texts[1], record, 99999989, 1, 0);
    begin(&texts[2], "RSM", "OURS", (const char *)last);
    end_with_mac(&texts[2], 0x1111111111111111 ^ 0x2222222222222222, 0);
    begin(&texts[3], "ESM", "OURS", (const char *)last);
    add(&texts[3], "CTP/99999999 CTR/99999999 ERF/ABFIKMOPU EDC/0123 4567 )");
    begin(&texts[4], "RSI", "OURS", (const char *)last);
    add(&texts[4], "SVR/*KK.KD.IV EDC/0123 4567 )");
    begin(&texts[5], "DSM", "OURS", (const char *)last);
    add(&texts[5], "%0*d )", KHL_TEXT_MOST - 2 - (int)texts[5].length, 0);
    write_ksm(&texts[6], record, 99999998, 1, 1);
}

static void row(const char *name, size_t bytes) {
    printf("khl_%-10s %6zu\n", name, bytes);
    trying("the stack of khl_%s", name);
    holds(bytes <= KHL_STACK, "%zu bytes, more than %d", bytes, KHL_STACK);
}

void test_stack(void) {
    static const uint32_t wanted[CASES] = {0, 4, 0, 0, 0, 4, 0};
    size_t most = 0;
    make_full();
    printf("bytes of stack, 64 partners\n");
    for (int i = 0; i < CASES; i++) {
        text = &texts[i];
        size_t bytes = depth(call_receive, wanted[i], "receive");
        most = bytes > most ? bytes : most;
    }
    row("receive", most);
    put_sending(record_of(&full, (const char *)last), 99999998, KHL_PHASE_CONFIRMED, 2);
    memset(request, 0, sizeof request);
    khl_request_put_count(request, 2);
    put_asked(request, 0, 0x133457799BBCDFF1, 7, "ABCDEFGHIJKLMNOP");
    put_asked(request, 1, 0x0123456789ABCDEF, 7, "ABCDEFGHIJKLMNOP");
    put_iv(request, KHL_IV_ENCIPHERED, 0);
    put_date(request, "840229235959");
    most = depth(call_build_ksm, KHL_DONE, "build_ksm");
    khl_request_put_notarized(request, 1);
    size_t notarized = depth(call_build_ksm, KHL_DONE, "build_ksm");
    row("build_ksm", notarized > most ? notarized : most);
    row("build_rsi", depth(call_build_rsi, KHL_DONE, "build_rsi"));
    row("ask", depth(call_ask, KHL_DONE, "ask"));
    row("remove", depth(call_remove, KHL_DONE, "remove"));
    put_sending(record_of(&full, (const char *)last), 99999998, KHL_PHASE_WAITING, 2);
    row("give_up", depth(call_give_up, KHL_DONE, "give_up"));
    row("start", depth(call_start, KHL_DONE, "start"));
    /* the last of 64 slots is free */
    full.length -= KHL_RECORD;
    full.bytes[full.length - 1] = KHL_KIND_EMPTY;
    row("load", depth(call_load, KHL_DONE, "load"));
}
