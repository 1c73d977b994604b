/* The card's driver for the second program: reads one call at a time on standard input, lends the card what it
   read, and writes the answer and every lent byte, the guards around each slice with them, to standard output. */
#define _POSIX_C_SOURCE 200809L
#include <stdint.h>
#include <stdio.h>
#include <stdlib.h>
#include <unistd.h>

#include "khlongsit.h"

enum { SLICES = 6, LARGEST = 1 << 15, SECONDS = 60 };

static struct {
    uint8_t bytes[LARGEST];
    size_t before, length, whole;
} lent[SLICES];

static uint8_t *at(int place) { return lent[place].bytes + lent[place].before; }

/* A slice as the C face takes it: where it begins and how long it is. */
#define SLICE(place) at(place), lent[place].length

static void broken(const char *what)
{
    fprintf(stderr, "driver: %s\n", what);
    exit(2);
}

static void take(void *bytes, size_t length)
{
    if (fread(bytes, 1, length, stdin) != length)
        broken("a call was cut short");
}

static size_t take_number(void)
{
    uint8_t bytes[4];
    take(bytes, sizeof bytes);
    return (size_t)khl_number(bytes, sizeof bytes);
}

static void take_slice(int place)
{
    size_t before = take_number(), length = take_number(), after = take_number();
    if (before > LARGEST || length > LARGEST || after > LARGEST || before + length + after > LARGEST)
        broken("a slice is too long");
    lent[place].before = before;
    lent[place].length = length;
    lent[place].whole = before + length + after;
    take(lent[place].bytes, lent[place].whole);
}

/* The calls in the order in which the second program numbers them. */
static uint32_t call(int number, int slices)
{
    static const int wanted[] = {4, 5, 5, 4, 3, 6, 4, 3};
    if (number > 7 || slices != wanted[number] || lent[slices - 1].length != KHL_REPORT)
        broken("no such call");
    switch (number) {
    case 0: return khl_receive(SLICE(0), SLICE(1), SLICE(2), at(3));
    case 1: return khl_build_ksm(SLICE(0), SLICE(1), SLICE(2), SLICE(3), at(4));
    case 2: return khl_build_rsi(SLICE(0), SLICE(1), SLICE(2), SLICE(3), at(4));
    case 3: return khl_ask(SLICE(0), SLICE(1), SLICE(2), at(3));
    case 4: return khl_start(SLICE(0), SLICE(1), at(2));
    case 5: return khl_load(SLICE(0), SLICE(1), SLICE(2), SLICE(3), SLICE(4), at(5));
    case 6: return khl_remove(SLICE(0), SLICE(1), SLICE(2), at(3));
    default: return khl_give_up(SLICE(0), SLICE(1), at(2));
    }
}

static void give(uint32_t answer, int slices)
{
    uint8_t bytes[4];
    khl_put_number(bytes, sizeof bytes, answer);
    fwrite(bytes, 1, sizeof bytes, stdout);
    for (int place = 0; place < slices; place++)
        fwrite(lent[place].bytes, 1, lent[place].whole, stdout);
    if (fflush(stdout) != 0)
        broken("standard output is closed");
}

int main(int words, char **word)
{
    if (words > 1) {
        fprintf(stderr, "usage: %s, with calls of the second program on standard input\n", word[0]);
        return 2;
    }
    for (int number = getchar(); number != EOF; number = getchar()) {
        int slices = getchar();
        if (slices < 1 || slices > SLICES)
            broken("no such number of slices");
        for (int place = 0; place < slices; place++)
            take_slice(place);
        alarm(SECONDS); /* a call that never ends ends the driver */
        uint32_t answer = call(number, slices);
        alarm(0);
        give(answer, slices);
    }
    return 0;
}
