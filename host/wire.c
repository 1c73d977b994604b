/* The line's command, run: messages in, one to a line, and replies out. */
#include <stdio.h>
#include <string.h>

#include "bytes.h"
#include "commands.h"
#include "khlongsit.h"
#include "say.h"
#include "store.h"
#include "words.h"

/* One byte more than a message may have is kept of a line: enough for the card to refuse it. */
enum { LINE_KEPT = KHL_TEXT_MOST + 1 };

/* What became of a message. */
struct outcome {
    uint32_t answer;
    int changed; /* whether the image is another now */
    uint8_t reply[KHL_ROOM], report[KHL_REPORT];
};

/* Reads a line; it ends at a newline or, if it has a byte, at the end of input. Gives its length, or -1 where there is
 * none or reading failed. */
static int read_line(uint8_t *line) {
    int length = 0, c;
    while ((c = getchar()) != EOF && c != '\n')
        if (length < LINE_KEPT)
            line[length++] = (uint8_t)c;
    return c == EOF && (length == 0 || ferror(stdin)) ? -1 : length;
}

/* Hands a message to the card and keeps the image where it changed. */
static int receive(const char *path, const uint8_t *text, size_t length, struct outcome *o) {
    uint8_t before[KHL_IMAGE_MOST];
    struct store store;
    if (store_open(&store, path) != DONE)
        return FAILED;
    memcpy(before, store.image, store.length);
    o->answer = khl_receive(store.image, store.length, text, length, o->reply, sizeof o->reply, o->report);
    wipe_stack();
    o->changed = memcmp(before, store.image, store.length) != 0;
    wipe(before, sizeof before);
    int status = o->changed ? store_keep(&store, store.image, store.length) : DONE;
    store_close(&store);
    return status;
}

/* Says that a line's reply or account could not be written, and whether the image is changed all the same. */
static int lost(const char *path, const struct outcome *o, const char *what, unsigned long number) {
    if (o->changed)
        return complain(CHANGED, "%s is changed, but the %s line %lu could not be written", path, what, number);
    return complain(FAILED, "the %s line %lu could not be written; nothing is changed by it", what, number);
}

/* The reply leaves only once the image is kept: a confirmation of keys that a cut then takes back would mislead the
 * partner. It leaves also where the account cannot be written, for the partner waits for it. */
static int answer_line(const char *path, unsigned long number, const uint8_t *text, size_t length) {
    struct outcome o;
    char account[120];
    int status = receive(path, text, length, &o);
    if (status != DONE)
        return complain(status, "stopped at line %lu, which is not answered", number);
    describe(account, sizeof account, o.answer, o.report);
    int told = fprintf(stderr, "%lu: %s\n", number, account) > 0 && !ferror(stderr);
    size_t out = khl_report_length(o.report);
    if (out > 0 && !print_line(o.reply, out))
        return lost(path, &o, "reply to", number);
    return told ? DONE : lost(path, &o, "account of", number);
}

int do_run(int count, char **words) {
    uint8_t line[LINE_KEPT];
    unsigned long number = 0;
    int length, status = DONE;
    (void)count;
    while (status == DONE && !ended_by && (length = read_line(line)) >= 0)
        status = answer_line(words[0], ++number, line, (size_t)length);
    if (status == DONE && ended_by)
        return complain(FAILED, "ended by a signal behind line %lu", number);
    if (status == DONE && ferror(stdin))
        return complain(FAILED, "cannot read standard input");
    return status;
}
