/* One input: the call that it says on the table that it says, and all that holds for every input. */
#include "harness.h"

#include <stdlib.h>
#include <string.h>

#include "after.h"
#include "blocks.h"
#include "call.h"
#include "finish.h"
#include "tell.h"

static int telling;

int LLVMFuzzerInitialize(int *count, char ***words) {
    (void)count, (void)words;
    make_tables();
    watch_blocks();
    telling = getenv("FUZZ_TELL") != NULL;
    if (getenv("FUZZ_FUNCTIONS") != NULL)
        atexit(print_functions);
    atexit(print_blocks);
    return 0;
}

/* the call and answer with all that the report tells but values; the phase too, for it decides much */
static void note_outcome(const struct outcome *o, const struct input *input, struct image *before) {
    const uint8_t *r = o->report;
    uint32_t told =
        (uint32_t)input->call << 28 | o->answer << 24 | o->letters << 8 | (uint32_t)khl_report_class(r) << 5;
    note(told ^ (uint32_t)khl_report_service(r) << 17 ^ (uint32_t)khl_report_iv_present(r) << 3 ^
         (uint32_t)khl_report_date_present(r));
    const uint8_t *single = record_of(before, (const uint8_t *)SINGLE, strlen(SINGLE));
    if (single != NULL && o->answer != KHL_BAD_IMAGE)
        note(told ^ ((uint32_t)khl_record_phase(single) + 1) << 19);
}

int LLVMFuzzerTestOneInput(const uint8_t *bytes, size_t length) {
    static struct image image;
    static struct outcome outcome;
    struct input input;
    uint8_t text[INPUT_MOST];
    if (!read_input(&input, bytes, length) || length > INPUT_MOST)
        return 0;
    make_image(&image, &input);
    if (input.call == RECEIVE && input.finished) {
        memcpy(text, input.slices[0].bytes, input.slices[0].length);
        finish(text, input.slices[0].length, &image);
        input.slices[0].bytes = text;
    }
    if (telling)
        tell_input(&input, &image);
    make_call(&outcome, &input, &image);
    if (telling)
        tell_outcome(&outcome, input.call);
    note_outcome(&outcome, &input, &image);
    look_after(&outcome, &input, &image);
    return 0;
}
