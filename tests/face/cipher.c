/* The bare cipher and MAC: a few published answers; the full rows are the program vectors' matter. */
#include <string.h>

#include "../../host/khlongsit.h"
#include "check.h"
#include "lend.h"
#include "tests.h"

void test_cipher(void) {
    static const char fips_113[] = "7654321 Now is the time for ";
    trying("the cipher");
    holds(khl_test_encipher(0x0101010101010101, 0x8000000000000000) == 0x95F8A5E5DD31D900, "variable plaintext, first");
    holds(khl_test_decipher(0x0101010101010101, 0x95F8A5E5DD31D900) == 0x8000000000000000, "and back");
    holds(khl_test_encipher(0x8001010101010101, 0) == 0x95A8D72813DAA94D, "variable key, first");
    holds(khl_test_encipher(0x8000000000000000, 0) == 0x95A8D72813DAA94D, "its parity bits do nothing");
    trying("the MAC");
    uint8_t *text = lend(TEXT, fips_113, strlen(fips_113));
    holds(khl_test_mac(0x0123456789ABCDEF, text, strlen(fips_113)) == 0xF1D30F68, "the example of FIPS 113");
    holds(changed_only(TEXT, 0, 0), "the text was written");
    text = lend(TEXT, NULL, 0);
    holds(khl_test_mac(0x0123456789ABCDEF, text, 0) == 0, "of no bytes");
    for (size_t length = 1; length <= 24; length++) {
        static const char zeros[24];
        text = lend(TEXT, zeros, length);
        uint32_t filled = khl_test_mac(0x0123456789ABCDEF, (const uint8_t *)zeros, (length + 7) / 8 * 8);
        holds(khl_test_mac(0x0123456789ABCDEF, text, length) == filled, "zero bytes fill the last block of %zu",
              length);
    }
}
