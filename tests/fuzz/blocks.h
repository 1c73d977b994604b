/* Which basic blocks of the card's code an input reaches.
 *
 * The archive is compiled without the instrumentation that fuzzers ask of a compiler, so each block gets a breakpoint
 * (int3) over its first byte instead; when it is hit, the byte is put back, the block's counter is set, and the program
 * goes on. A block costs one signal the first time and nothing from then on, and an input that reaches something new is
 * seen at once. The counters stand where libFuzzer looks for counters that are not its own. */
#ifndef FUZZ_BLOCKS_H
#define FUZZ_BLOCKS_H

#include <stddef.h>
#include <stdint.h>

/* Written by blocks.py from the disassembled archive: the card's functions in order, and the offset of each block in
 * the section that has the card's code. */
struct function {
    const char *name;
    size_t blocks;
};
extern const struct function card_functions[];
extern const size_t card_function_count;
extern const uint32_t card_blocks[];
extern const size_t card_block_count;

/* Sets the breakpoints. What runs before is not counted. */
void watch_blocks(void);

/* Notes something else that an input brought about, for it counts as new just like a block. */
void note(uint32_t what);

/* How many blocks were reached since they are watched. */
size_t blocks_reached(void);

/* Prints that in one line, or for every function. */
void print_blocks(void);
void print_functions(void);

/* For a loop of our own: whether a counter was set that was never set before. Clears the counters. */
int anything_new(void);

#endif
