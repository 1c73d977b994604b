#include "mutate.h"

#include <stdio.h>
#include <string.h>

enum { WORDS_MOST = 128, WORD_MOST = 32, WAYS = 7 };

static uint64_t state = 1;
static char words[WORDS_MOST][WORD_MOST];
static size_t word_count;

void set_seed(uint64_t seed) { state = seed * 2 + 1; }

/* xorshift64*: below a limit */
static size_t any(size_t limit) {
    state ^= state >> 12;
    state ^= state << 25;
    state ^= state >> 27;
    return (size_t)(state * 0x2545F4914F6CDD1D >> 33) % limit;
}

int read_words(const char *name) {
    char line[WORD_MOST];
    FILE *file = fopen(name, "r");
    if (file == NULL)
        return 0;
    while (word_count < WORDS_MOST && fgets(line, sizeof line, file) != NULL) {
        char *end = strrchr(line, '"');
        if (line[0] != '"' || end == line)
            continue;
        *end = 0;
        strcpy(words[word_count++], line + 1);
    }
    return fclose(file) == 0;
}

/* puts so many bytes in the place of so many others, as far as there is room */
static void replace(struct bytes *input, size_t at, size_t old, const void *bytes, size_t length) {
    if (input->length - old + length > INPUT_MOST)
        return;
    memmove(input->bytes + at + length, input->bytes + at + old, input->length - at - old);
    memcpy(input->bytes + at, bytes, length);
    input->length += length - old;
}

static void change(struct bytes *input, const struct bytes *other) {
    size_t at = any(input->length + 1), rest = input->length - at, part = any(rest < 15 ? rest + 1 : 16);
    uint8_t byte = (uint8_t)any(256), readable = (uint8_t) "ABEKPMVIDX0123456789 ./*"[any(24)];
    switch (any(WAYS)) {
    case 0: replace(input, at, rest > 0, &byte, 1); break;
    case 1: replace(input, at, rest > 0, &readable, 1); break;
    case 2: replace(input, at, 0, any(2) ? &byte : &readable, 1); break;
    case 3: replace(input, at, part, &byte, 0); break;
    case 4:
        if (word_count > 0) {
            const char *word = words[any(word_count)];
            replace(input, at, any(2) ? part : 0, word, strlen(word));
        }
        break;
    case 5: {
        size_t from = any(other->length + 1), length = any(other->length - from + 1);
        replace(input, at, any(2) ? part : rest, other->bytes + from, length);
        break;
    }
    default:
        if (rest > 0)
            input->bytes[at] ^= (uint8_t)(1u << any(8));
    }
}

void mutate(struct bytes *input, const struct bytes *inputs, size_t count) {
    *input = inputs[any(count)];
    for (size_t ways = 1 + any(8); ways > 0; ways--)
        change(input, &inputs[any(count)]);
}
