/* What an input says: which call, on which table and what is changed in it, into which room, and the call's texts.
 *
 *   byte 0   the call, by enum call
 *   byte 1   the table, by enum table of tables.h
 *   byte 2   the room for the reply or the new image, one of eight around the least that is enough
 *   byte 3   bit 0: the text is put right, finish.h; bits 1 and 2: the image is lent a byte short (1) or a byte long
 * (2); bits 4 to 6: the number of edits edits    three bytes each: a slot (128 and more: our own record), a place in
 * its record, the byte to put there slices   the call's, in the header's order; each but the last begins with its
 * length, the last is all the rest */
#ifndef FUZZ_INPUT_H
#define FUZZ_INPUT_H

#include <stddef.h>
#include <stdint.h>

enum call { RECEIVE, BUILD_KSM, BUILD_RSI, ASK, GIVE_UP, START, LOAD, REMOVE, CALLS };

enum { INPUT_MOST = 640 }; /* bytes: the longest text and more; a longer input is not run */
enum { HEAD = 4, EDIT = 3, EDITS_MOST = 7, SLICES = 3, ROOMS = 8, FINISHED = 1, SHORT = 2, LONG = 4, EDITED = 16 };

struct slice {
    const uint8_t *bytes;
    size_t length;
};

struct input {
    enum call call;
    unsigned table;
    size_t room;
    int finished;                /* whether the text is put right */
    int longer;                  /* -1, 0 or 1 */
    struct slice edits;          /* EDIT bytes each */
    struct slice slices[SLICES]; /* those that the call does not take are empty */
};

/* The call's name in the header. */
const char *call_name(enum call call);

/* How many slices a call takes besides image, reply and new image. */
int slices_of(enum call call);

/* Whether a call writes a new image instead of a reply. */
int makes_image(enum call call);

/* Reads an input; gives 0 where it is shorter than its head. */
int read_input(struct input *input, const uint8_t *bytes, size_t length);

#endif
