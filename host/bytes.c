#define _DEFAULT_SOURCE
#include "bytes.h"

#include <stdint.h>
#include <string.h>
#include <sys/prctl.h>
#include <sys/resource.h>

/* more than a call of the card or a command of ours needs */
enum { STACK_MOST = 64 * 1024 };

void wipe(void *at, size_t bytes) { explicit_bzero(at, bytes); }

#if defined __has_attribute
#if __has_attribute(zero_call_used_regs)
__attribute__((zero_call_used_regs("all")))
#endif
#endif
void wipe_stack(void) {
    uint8_t below[STACK_MOST];
    explicit_bzero(below, sizeof below);
}

/* the limit does not hold for a dump that is piped to a program, the other does */
int forbid_core_dump(void) {
    const struct rlimit none = {0, 0};
    return setrlimit(RLIMIT_CORE, &none) == 0 && prctl(PR_SET_DUMPABLE, 0) == 0;
}
