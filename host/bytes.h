/* Keys in the program's memory. */
#ifndef HOST_BYTES_H
#define HOST_BYTES_H

#include <stddef.h>

/* Overwrites keys that are no longer needed. */
void wipe(void *at, size_t bytes);

/* Overwrites the stack below its caller, where a call of the card leaves keys and key schedules, and the registers that
 * a call may use. */
void wipe_stack(void);

/* Sees to it that the program leaves no core dump; gives whether that could be done. */
int forbid_core_dump(void);

#endif
