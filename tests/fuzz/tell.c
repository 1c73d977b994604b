#include "tell.h"

#include <stdio.h>

/* bytes as text, others than printable ones as \xx */
static void tell_bytes(const char *what, const uint8_t *bytes, size_t length) {
    printf("  %-7s %5zu  ", what, length);
    for (size_t i = 0; i < length; i++)
        if (bytes[i] >= ' ' && bytes[i] <= '~' && bytes[i] != '\\')
            putchar(bytes[i]);
        else
            printf("\\%02X", bytes[i]);
    putchar('\n');
}

void tell_input(const struct input *input, const struct image *image) {
    static const char *const tables[TABLES] = {"empty", "idle", "waiting", "confirmed", "broken",
                                               "taken", "both", "holes",   "spent",     "full"};
    static const char *const slices[CALLS][SLICES] = {
        [RECEIVE] = {"text"},
        [BUILD_KSM] = {"partner", "request"},
        [BUILD_RSI] = {"partner", "service"},
        [ASK] = {"partner"},
        [GIVE_UP] = {"partner"},
        [START] = {"own"},
        [LOAD] = {"partner", "name", "key"},
        [REMOVE] = {"partner"},
    };
    printf("%s\n  %-7s %5zu  %s, %zu edits\n  %-7s %5zu\n", call_name(input->call), "image", image->length,
           tables[input->table % TABLES], input->edits.length / EDIT, "room", input->room);
    for (size_t i = 0; i < input->edits.length; i += EDIT) {
        const uint8_t *edit = input->edits.bytes + i;
        printf("          slot %u, place %u: %02X\n", edit[0], edit[1], edit[2]);
    }
    for (int i = 0; i < slices_of(input->call); i++)
        tell_bytes(slices[input->call][i], input->slices[i].bytes, input->slices[i].length);
    fflush(stdout);
}

void tell_outcome(const struct outcome *o, enum call call) {
    printf("  %-7s %5u\n", "answer", (unsigned)o->answer);
    tell_bytes("report", o->report, KHL_REPORT);
    if (o->length > 0)
        tell_bytes(makes_image(call) ? "new" : "reply", o->written.bytes, o->length);
    fflush(stdout);
}
