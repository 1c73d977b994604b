/* The C face, called as a host calls it: every function on good and bad input, each buffer between guarded pages.
 * Prints how often each answer was given and how deep each call goes; its last line says how much was held. */
#include <stdio.h>

#include "call.h"
#include "check.h"
#include "lend.h"
#include "tests.h"

static void test_all(void) {
    test_cipher();
    test_receive();
    test_letters();
    test_build();
    test_custody();
    test_order();
    test_images();
    test_exchange();
}

int main(void) {
    test_parts();
    lend_at(BEFORE_A_PAGE);
    test_all();
    lend_at(BEHIND_A_PAGE);
    test_all();
    all_answers_given();
    test_stack();
    printf("face: %lu held, %lu failed\n", held(), failed());
    return failed() == 0 && fflush(stdout) == 0 ? 0 : 1;
}
