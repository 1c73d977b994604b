/* A loop of our own around the harness, for processors that have no libFuzzer, and to replay files.
 *
 * It replays the files it is given; then, so many times as it is told, it changes one of them or of those found since,
 * runs it, and keeps it where it reached something new. One seed always gives the same runs. */
#define _DEFAULT_SOURCE
#include <errno.h>
#include <fcntl.h>
#include <signal.h>
#include <stdio.h>
#include <stdlib.h>
#include <string.h>
#include <unistd.h>

#include "blocks.h"
#include "harness.h"
#include "mutate.h"

static struct bytes inputs[INPUTS_MOST];
static size_t input_count;
static struct bytes current;        /* what is being run, for the file of a finding */
static const char *keep, *findings; /* where new inputs and findings go, or null pointers */

static int write_to(const char *name, const struct bytes *input) {
    int file = openat(AT_FDCWD, name, O_WRONLY | O_CREAT | O_TRUNC, 0666);
    return file >= 0 && write(file, input->bytes, input->length) == (ssize_t)input->length && close(file) == 0;
}

/* the finding's name is fixed: a finding ends the loop */
static void found(int number) {
    static char name[4096];
    if (findings != NULL && snprintf(name, sizeof name, "%s/finding", findings) > 0 && write_to(name, &current))
        fprintf(stderr, "the input is kept in %s\n", name);
    signal(number, SIG_DFL);
    raise(number);
}

static void run(const struct bytes *input) {
    current = *input;
    LLVMFuzzerTestOneInput(current.bytes, current.length);
    if (!anything_new() || input_count == INPUTS_MOST)
        return;
    inputs[input_count++] = *input;
    char name[4096];
    if (keep != NULL && snprintf(name, sizeof name, "%s/input-%06zu", keep, input_count) > 0 && !write_to(name, input))
        fprintf(stderr, "%s: %s\n", name, strerror(errno));
}

static int read_from(const char *name, struct bytes *input) {
    FILE *file = fopen(name, "rb");
    if (file == NULL)
        return 0;
    input->length = fread(input->bytes, 1, sizeof input->bytes, file);
    int whole = fgetc(file) == EOF;
    if (fclose(file) == 0 && !whole)
        errno = EFBIG;
    return whole;
}

static int usage(const char *program) {
    fprintf(stderr, "usage: %s [--runs N] [--seed N] [--words FILE] [--keep FOLDER] [--findings FOLDER] FILE..\n",
            program);
    return 2;
}

int main(int count, char **words) {
    unsigned long runs = 0, seed = 1;
    int at = 1;
    for (; at + 1 < count && strncmp(words[at], "--", 2) == 0; at += 2) {
        char *value = words[at + 1], *end = value;
        if (strcmp(words[at], "--runs") == 0)
            runs = strtoul(value, &end, 10);
        else if (strcmp(words[at], "--seed") == 0)
            seed = strtoul(value, &end, 10);
        else if (strcmp(words[at], "--words") == 0 && read_words(value))
            continue;
        else if (strcmp(words[at], "--keep") == 0 && (keep = value) != NULL)
            continue;
        else if (strcmp(words[at], "--findings") == 0 && (findings = value) != NULL)
            continue;
        if (end == value || *end != 0)
            return usage(words[0]);
    }
    if (at >= count)
        return usage(words[0]);
    signal(SIGABRT, found);
    signal(SIGSEGV, found);
    signal(SIGBUS, found);
    LLVMFuzzerInitialize(&count, &words);
    for (; at < count; at++) {
        static struct bytes input;
        if (!read_from(words[at], &input)) {
            fprintf(stderr, "%s: %s\n", words[at], strerror(errno));
            return 2;
        }
        run(&input);
    }
    set_seed(seed);
    for (unsigned long i = 1; i <= runs && input_count > 0; i++) {
        static struct bytes input;
        mutate(&input, inputs, input_count);
        run(&input);
        if (i % 10000 == 0)
            fprintf(stderr, "%lu runs, %zu inputs, %zu of %zu blocks\n", i, input_count, blocks_reached(),
                    card_block_count);
    }
    return 0;
}
