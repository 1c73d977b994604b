/* The request for a KSM from the words of a command. */
#ifndef HOST_REQUEST_H
#define HOST_REQUEST_H

#include <stdint.h>

/* Makes the 74 bytes of a request; gives DONE, or complains and gives MISUSED, or FAILED where a key could not be read.
 */
int read_request(uint8_t *request, int count, char **words);

#endif
