#include "keys.h"

#include <string.h>

#include "bytes.h"
#include "khlongsit.h"

static int digit(char c) {
    if (c >= '0' && c <= '9')
        return c - '0';
    if (c >= 'A' && c <= 'F')
        return c - 'A' + 10;
    if (c >= 'a' && c <= 'f')
        return c - 'a' + 10;
    return -1;
}

size_t read_hex(const char *digits, uint8_t *bytes, size_t most) {
    size_t length = 0;
    for (; digits[0] != '\0'; digits += 2, length++) {
        int high = digit(digits[0]), low = high < 0 ? -1 : digit(digits[1]);
        if (low < 0 || length == most)
            return 0;
        bytes[length] = (uint8_t)(high << 4 | low);
    }
    return length;
}

static int is_odd(uint8_t byte) {
    byte ^= byte >> 4;
    byte ^= byte >> 2;
    byte ^= byte >> 1;
    return byte & 1;
}

int has_odd_parity(const uint8_t *key, size_t bytes) {
    for (size_t i = 0; i < bytes; i++)
        if (!is_odd(key[i]))
            return 0;
    return 1;
}

void combine(uint8_t *key, const uint8_t *first, const uint8_t *second, size_t bytes) {
    for (size_t i = 0; i < bytes; i++) {
        key[i] = first[i] ^ second[i];
        key[i] ^= !is_odd(key[i]);
    }
}

uint32_t check_value(const uint8_t *key, size_t bytes) {
    uint64_t left = khl_number(key, KHL_KEY), block = khl_test_encipher(left, 0);
    if (bytes > KHL_KEY)
        block = khl_test_encipher(left, khl_test_decipher(khl_number(key + KHL_KEY, KHL_KEY), block));
    wipe_stack();
    return (uint32_t)(block >> 40);
}

void wipe_key_words(int count, char **words) {
    for (int i = 1; i < count; i++)
        if (strcmp(words[i - 1], "--key") == 0)
            wipe(words[i], strlen(words[i]));
}
