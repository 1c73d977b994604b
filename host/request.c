#include "request.h"

#include <string.h>

#include "keys.h"
#include "khlongsit.h"
#include "say.h"
#include "secret.h"

/* A key or IV of 16 hex digits, as it stands or, for `-`, on the next line of standard input. */
static int read_block(uint8_t *block, const char *word, const char *what) {
    size_t bytes = 0;
    int status = DONE;
    if (strcmp(word, "-") == 0)
        status = read_secret(what, block, KHL_KEY, &bytes);
    else
        bytes = read_hex(word, block, KHL_KEY);
    return status != DONE || bytes == KHL_KEY ? status : complain(MISUSED, "%s is 16 hex digits", what);
}

/* The place of the key that is being described: the last one begun. */
static int current(const uint8_t *request) { return khl_request_count(request) - 1; }

/* ---- the options: each is given the request and the word behind it */

static int begin_key(uint8_t *request, const char *word) {
    if (khl_request_count(request) == 2)
        return complain(MISUSED, "a message has at most two keys");
    khl_request_put_count(request, khl_request_count(request) + 1);
    return read_block(khl_request_key(request, current(request)), word, "a data key");
}

static int set_flag(uint8_t *request, enum khl_flag flag) {
    khl_request_put_flags(request, current(request), khl_request_flags(request, current(request)) | flag);
    return DONE;
}

static int mark_p(uint8_t *request, const char *word) {
    (void)word;
    return set_flag(request, KHL_FLAG_P);
}

static int write_idk1(uint8_t *request, const char *word) {
    if (strlen(word) > KHL_NAME)
        return complain(MISUSED, "%s is longer than %d characters", word, KHL_NAME);
    khl_put_name(khl_request_name(request, current(request)), word);
    return set_flag(request, KHL_FLAG_IDK1);
}

static int write_idk2(uint8_t *request, const char *word) {
    (void)word;
    return set_flag(request, KHL_FLAG_IDK2);
}

static int set_iv(uint8_t *request, enum khl_iv_kind kind, const char *word) {
    if (khl_request_iv_kind(request) != KHL_IV_NONE)
        return complain(MISUSED, "a message has at most one IV");
    khl_request_put_iv_kind(request, kind);
    return read_block(khl_request_iv(request), word, "an IV");
}

static int plain_iv(uint8_t *request, const char *word) { return set_iv(request, KHL_IV_PLAIN, word); }
static int enciphered_iv(uint8_t *request, const char *word) { return set_iv(request, KHL_IV_ENCIPHERED, word); }

static int set_date(uint8_t *request, const char *word) {
    if (strlen(word) != KHL_DATE)
        return complain(MISUSED, "a date is 12 digits, YYMMDDHHMMSS");
    khl_request_put_dated(request, 1);
    memcpy(khl_request_date(request), word, KHL_DATE);
    return DONE;
}

static int notarize(uint8_t *request, const char *word) {
    (void)word;
    khl_request_put_notarized(request, 1);
    return DONE;
}

static const struct option {
    const char *name;
    int (*act)(uint8_t *request, const char *word);
    int words;  /* behind it */
    int of_key; /* it is about the key before it */
} options[] = {
    {"--key", begin_key, 1, 0},   {"--p", mark_p, 0, 1},           {"--idk1", write_idk1, 1, 1},
    {"--idk2", write_idk2, 0, 1}, {"--iv", plain_iv, 1, 0},        {"--iv-enciphered", enciphered_iv, 1, 0},
    {"--date", set_date, 1, 0},   {"--notarized", notarize, 0, 0},
};

static const struct option *find_option(const char *name) {
    for (size_t i = 0; i < sizeof options / sizeof *options; i++)
        if (strcmp(options[i].name, name) == 0)
            return &options[i];
    return NULL;
}

int read_request(uint8_t *request, int count, char **words) {
    memset(request, 0, KHL_REQUEST);
    for (int i = 0; i < count; i++) {
        const struct option *option = find_option(words[i]);
        if (option == NULL)
            return complain(MISUSED, "%s: no such option", words[i]);
        if (option->of_key && khl_request_count(request) == 0)
            return complain(MISUSED, "%s stands behind the --key that it is about", words[i]);
        if (i + option->words >= count)
            return complain(MISUSED, "%s: a word is missing behind it", words[i]);
        i += option->words;
        int status = option->act(request, words[i]);
        if (status != DONE)
            return status;
    }
    return khl_request_count(request) > 0 ? DONE : complain(MISUSED, "a key message needs a --key");
}
