/* The desk's commands: ksm, rsi, give-up, ask. */
#include <inttypes.h>
#include <stdio.h>
#include <string.h>

#include "bytes.h"
#include "commands.h"
#include "keys.h"
#include "khlongsit.h"
#include "request.h"
#include "say.h"
#include "show.h"
#include "store.h"

/* The image with the new count is kept before the message is shown, so no count is ever sent twice. */
static int build_ksm(const char *path, const char *partner, uint8_t *request) {
    uint8_t reply[KHL_ROOM], report[KHL_REPORT];
    struct store store;
    if (store_open(&store, path) != DONE)
        return FAILED;
    uint32_t answer =
        khl_build_ksm(store.image, store.length, TEXT(partner), request, KHL_REQUEST, reply, sizeof reply, report);
    wipe_stack();
    wipe(request, KHL_REQUEST);
    int status = store_end(&store, partner, answer, store.image, store.length);
    if (status == FAILED || (status == DONE && print_line(reply, khl_report_length(report))))
        return status;
    return complain(CHANGED, "%s is changed, but the message %s: give it up and build another", path,
                    status == DONE ? "could not be printed" : "is not printed");
}

int do_ksm(int count, char **words) {
    uint8_t request[KHL_REQUEST];
    int status = read_request(request, count - 2, words + 2);
    wipe_key_words(count, words);
    if (status == DONE)
        status = build_ksm(words[0], words[1], request);
    wipe(request, sizeof request);
    return status;
}

int do_rsi(int count, char **words) {
    uint8_t reply[KHL_ROOM], report[KHL_REPORT];
    struct store store;
    const char *partner = words[1], *service = count > 2 ? words[2] : "";
    if (store_open(&store, words[0]) != DONE)
        return FAILED;
    uint32_t answer =
        khl_build_rsi(store.image, store.length, TEXT(partner), TEXT(service), reply, sizeof reply, report);
    wipe_stack();
    int status = store_end(&store, partner, answer, NULL, 0);
    if (status != DONE || print_line(reply, khl_report_length(report)))
        return status;
    return complain(FAILED, "the message could not be printed; nothing is changed");
}

int do_give_up(int count, char **words) {
    uint8_t report[KHL_REPORT];
    struct store store;
    const char *partner = words[1];
    (void)count;
    if (store_open(&store, words[0]) != DONE)
        return FAILED;
    uint32_t answer = khl_give_up(store.image, store.length, TEXT(partner), report);
    wipe_stack();
    int status = store_end(&store, partner, answer, store.image, store.length);
    return tell_change(status, words[0], "gave up on %s", partner);
}

int do_ask(int count, char **words) {
    uint8_t reply[KHL_ROOM], report[KHL_REPORT];
    struct store store;
    const char *partner = words[1];
    (void)count;
    if (store_open(&store, words[0]) != DONE)
        return FAILED;
    uint32_t answer = khl_ask(store.image, store.length, TEXT(partner), reply, sizeof reply, report);
    wipe_stack();
    int status = store_end(&store, partner, answer, NULL, 0);
    if (status == DONE)
        show_entry(reply);
    wipe(reply, sizeof reply);
    return status;
}
