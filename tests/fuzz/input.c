#include "input.h"

#include "../../host/khlongsit.h"

static const struct {
    const char *name;
    int slices, makes_image;
} calls[CALLS] = {
    [RECEIVE] = {"khl_receive", 1, 0}, [BUILD_KSM] = {"khl_build_ksm", 2, 0}, [BUILD_RSI] = {"khl_build_rsi", 2, 0},
    [ASK] = {"khl_ask", 1, 0},         [GIVE_UP] = {"khl_give_up", 1, 0},     [START] = {"khl_start", 1, 1},
    [LOAD] = {"khl_load", 3, 1},       [REMOVE] = {"khl_remove", 1, 1},
};

const char *call_name(enum call call) { return calls[call].name; }
int slices_of(enum call call) { return calls[call].slices; }
int makes_image(enum call call) { return calls[call].makes_image; }

/* the room enough for all comes first, so that an input of zeros has it */
static size_t room_of(enum call call, uint8_t choice) {
    static const size_t replies[ROOMS] = {KHL_ROOM, KHL_ROOM - 1, KHL_ROOM + 1,  0,
                                          1,        KHL_KSM_MOST, KHL_TEXT_MOST, KHL_IMAGE_MOST};
    static const size_t images[ROOMS] = {
        KHL_IMAGE_MOST, KHL_IMAGE_MOST - 1, KHL_IMAGE_MOST + 1, 0, 1, KHL_IMAGE_LEAST, KHL_ROOM, 12288};
    return (makes_image(call) ? images : replies)[choice % ROOMS];
}

int read_input(struct input *input, const uint8_t *bytes, size_t length) {
    if (length < HEAD)
        return 0;
    const uint8_t *end = bytes + length;
    input->call = (enum call)(bytes[0] % CALLS);
    input->table = bytes[1];
    input->room = room_of(input->call, bytes[2]);
    input->finished = bytes[3] & FINISHED;
    input->longer = bytes[3] & SHORT ? -1 : bytes[3] & LONG ? 1 : 0;
    size_t edits = (size_t)(bytes[3] / EDITED) % (EDITS_MOST + 1), whole = (length - HEAD) / EDIT;
    bytes += HEAD;
    input->edits = (struct slice){bytes, EDIT * (edits < whole ? edits : whole)};
    bytes += input->edits.length;
    int last = slices_of(input->call) - 1;
    for (int i = 0; i < SLICES; i++) {
        size_t rest = (size_t)(end - bytes), wanted = rest;
        if (i < last && rest > 0)
            wanted = *bytes++, rest--;
        if (i > last)
            wanted = 0;
        input->slices[i] = (struct slice){bytes, wanted < rest ? wanted : rest};
        bytes += input->slices[i].length;
    }
    return 1;
}
