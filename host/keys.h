/* Keys as people handle them: hex digits, components, parity, check values. */
#ifndef HOST_KEYS_H
#define HOST_KEYS_H

#include <stddef.h>
#include <stdint.h>

enum { TOP_MOST = 16 }; /* a pair */

/* Reads hex digits, two to a byte, and gives the number of bytes; 0 where that is none, more than `most`, or not hex.
 */
size_t read_hex(const char *digits, uint8_t *bytes, size_t most);

/* Whether each byte has an odd number of ones. */
int has_odd_parity(const uint8_t *key, size_t bytes);

/* Exclusive-ors two components and sets each byte's last bit so that the byte is odd. */
void combine(uint8_t *key, const uint8_t *first, const uint8_t *second, size_t bytes);

/* The check value of a key or pair: the first three bytes of the zero block enciphered under it. */
uint32_t check_value(const uint8_t *key, size_t bytes);

/* Wipes the keys among the words of a command: each that stands behind --key. */
void wipe_key_words(int count, char **words);

#endif
