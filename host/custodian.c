/* The custodians' commands: start, load, remove, list. */
#include <inttypes.h>
#include <stdio.h>
#include <string.h>

#include "bytes.h"
#include "commands.h"
#include "keys.h"
#include "khlongsit.h"
#include "say.h"
#include "secret.h"
#include "show.h"
#include "store.h"

int do_start(int count, char **words) {
    uint8_t out[KHL_IMAGE_MOST], report[KHL_REPORT];
    struct store store;
    const char *own = words[1];
    (void)count;
    if (store_begin(&store, words[0]) != DONE)
        return FAILED;
    uint32_t answer = khl_start(TEXT(own), out, sizeof out, report);
    int status = store_end(&store, own, answer, out, khl_report_length(report));
    return tell_change(status, words[0], "started %s", own);
}

/* Whether two components have a half in common: exclusive-or'ed, it would be a key that everybody knows. */
static int share_a_half(const uint8_t *first, const uint8_t *second, size_t bytes) {
    for (size_t at = 0; at < bytes; at += KHL_KEY)
        if (memcmp(first + at, second + at, KHL_KEY) == 0)
            return 1;
    return 0;
}

static int judge_components(const uint8_t *first, size_t bytes, const uint8_t *second, size_t again) {
    if ((bytes != KHL_KEY && bytes != TOP_MOST) || again != bytes)
        return complain(MISUSED, "two components are wanted, both of 16 or both of 32 hex digits, one to a line");
    if (!has_odd_parity(first, bytes) || !has_odd_parity(second, bytes))
        return complain(MISUSED, "the %s component is not of odd parity",
                        has_odd_parity(first, bytes) ? "second" : "first");
    if (share_a_half(first, second, bytes))
        return complain(MISUSED, "the two components are equal, or a half of them is");
    return DONE;
}

/* The top key from the components of two custodians, as X9.17 has it in Appendix B: each component is of odd parity,
 * which finds most slips of the hand; they are exclusive-or'ed, and the result, whose bytes are then all even, is made
 * odd. Neither custodian knows the key. */
static int read_components(uint8_t *key, size_t *bytes) {
    uint8_t first[TOP_MOST], second[TOP_MOST];
    size_t again = 0;
    int status = read_secret("first component", first, sizeof first, bytes);
    if (status == DONE && *bytes > 0)
        status = read_secret("second component", second, sizeof second, &again);
    if (status == DONE)
        status = judge_components(first, *bytes, second, again);
    if (status == DONE)
        combine(key, first, second, *bytes);
    wipe(first, sizeof first);
    wipe(second, sizeof second);
    return status;
}

/* The top key: from two custodians, or whole for tests, where it goes to the card as it stands. */
static int top_key(int count, char **words, uint8_t *key, size_t *bytes) {
    if (count == 3)
        return read_components(key, bytes);
    *bytes = strcmp(words[3], "--key") == 0 && count == 5 ? read_hex(words[4], key, TOP_MOST) : 0;
    wipe_key_words(count, words);
    if (*bytes == KHL_KEY || *bytes == TOP_MOST)
        return DONE;
    return complain(MISUSED, "what may follow the key name is --key and 16 or 32 hex digits");
}

static int load(const char *path, const char *partner, const char *name, const uint8_t *key, size_t bytes) {
    uint8_t out[KHL_IMAGE_MOST], report[KHL_REPORT];
    struct store store;
    if (store_open(&store, path) != DONE)
        return FAILED;
    uint32_t answer =
        khl_load(store.image, store.length, TEXT(partner), TEXT(name), key, bytes, out, sizeof out, report);
    wipe_stack();
    int status = store_end(&store, partner, answer, out, khl_report_length(report));
    wipe(out, sizeof out);
    return status;
}

int do_load(int count, char **words) {
    uint8_t key[TOP_MOST];
    size_t bytes = 0;
    uint32_t check = 0;
    int status = top_key(count, words, key, &bytes);
    if (status == DONE) {
        check = check_value(key, bytes);
        status = load(words[0], words[1], words[2], key, bytes);
    }
    wipe(key, sizeof key);
    return tell_change(status, words[0], "loaded %s under %s, %s, check value %06" PRIX32, words[1], words[2],
                       bytes == KHL_KEY ? "a single key" : "a pair", check);
}

int do_remove(int count, char **words) {
    uint8_t out[KHL_IMAGE_MOST], report[KHL_REPORT];
    struct store store;
    const char *partner = words[1];
    (void)count;
    if (store_open(&store, words[0]) != DONE)
        return FAILED;
    uint32_t answer = khl_remove(store.image, store.length, TEXT(partner), out, sizeof out, report);
    wipe_stack();
    int status = store_end(&store, partner, answer, out, khl_report_length(report));
    wipe(out, sizeof out);
    return tell_change(status, words[0], "removed %s", partner);
}

int do_list(int count, char **words) {
    struct store store;
    int partners = 0;
    (void)count;
    if (store_open(&store, words[0]) != DONE)
        return FAILED;
    const uint8_t *own = khl_image_own(store.image);
    printf("card %.*s\n", (int)khl_name_length(own), (const char *)own);
    show_heading();
    for (int slot = 0; slot < KHL_PARTNERS; slot++) {
        const uint8_t *record = khl_image_record(store.image, slot);
        if (record == NULL)
            continue;
        show_row(record);
        partners++;
    }
    printf("%d of %d partners\n", partners, KHL_PARTNERS);
    store_close(&store);
    return DONE;
}
