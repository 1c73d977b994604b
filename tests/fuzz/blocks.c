#define _GNU_SOURCE
#include "blocks.h"

#include <signal.h>
#include <stdio.h>
#include <stdlib.h>
#include <string.h>
#include <sys/mman.h>
#include <ucontext.h>
#include <unistd.h>

enum { BLOCKS_MOST = 16384, NOTES = 4096, COUNTERS = BLOCKS_MOST + NOTES, BREAKPOINT = 0xCC };

__attribute__((section("__libfuzzer_extra_counters"))) static uint8_t counters[COUNTERS];
static uint8_t seen[COUNTERS];
static uint8_t first_bytes[BLOCKS_MOST], reached[BLOCKS_MOST];

/* the linker's names for the bounds of the section */
extern uint8_t __start_card_code[], __stop_card_code[];

static size_t block_at(uint32_t offset) {
    size_t from = 0, to = card_block_count;
    while (from < to) {
        size_t middle = (from + to) / 2;
        if (card_blocks[middle] < offset)
            from = middle + 1;
        else
            to = middle;
    }
    return from;
}

/* the processor stands behind the breakpoint: it goes back to the instruction that was there */
static void hit(int number, siginfo_t *info, void *context) {
    greg_t *at = &((ucontext_t *)context)->uc_mcontext.gregs[REG_RIP];
    uint8_t *place = (uint8_t *)(*at - 1);
    (void)number, (void)info;
    size_t block = place < __start_card_code || place >= __stop_card_code
                       ? card_block_count
                       : block_at((uint32_t)(place - __start_card_code));
    if (block == card_block_count || __start_card_code + card_blocks[block] != place || reached[block])
        abort();
    *place = first_bytes[block];
    reached[block] = counters[block] = 1;
    *at -= 1;
}

void watch_blocks(void) {
    struct sigaction action = {.sa_sigaction = hit, .sa_flags = SA_SIGINFO};
    size_t page = (size_t)sysconf(_SC_PAGESIZE);
    uint8_t *from = __start_card_code - (uintptr_t)__start_card_code % page;
    if (card_block_count > BLOCKS_MOST || sigaction(SIGTRAP, &action, NULL) != 0 ||
        mprotect(from, (size_t)(__stop_card_code - from), PROT_READ | PROT_WRITE | PROT_EXEC) != 0) {
        perror("setting the breakpoints");
        exit(2);
    }
    for (size_t i = 0; i < card_block_count; i++) {
        uint8_t *place = __start_card_code + card_blocks[i];
        first_bytes[i] = *place;
        *place = BREAKPOINT;
    }
}

void note(uint32_t what) { counters[BLOCKS_MOST + (what * 2654435761u >> 20)] = 1; }

size_t blocks_reached(void) {
    size_t all = 0;
    for (size_t i = 0; i < card_block_count; i++)
        all += reached[i];
    return all;
}

void print_blocks(void) {
    printf("blocks of the card's code reached: %zu of %zu\n", blocks_reached(), card_block_count);
    fflush(stdout);
}

void print_functions(void) {
    size_t block = 0;
    for (size_t i = 0; i < card_function_count; i++) {
        size_t some = 0, end = block + card_functions[i].blocks;
        for (; block < end; block++)
            some += reached[block];
        printf("%5zu of %5zu  %s\n", some, card_functions[i].blocks, card_functions[i].name);
    }
}

int anything_new(void) {
    int new = 0;
    for (size_t i = 0; i < COUNTERS; i++)
        if (counters[i] && !seen[i])
            new = seen[i] = 1;
    memset(counters, 0, sizeof counters);
    return new;
}
