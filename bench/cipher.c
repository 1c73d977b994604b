/* MACs over a long text and over as much as the longest KSM without NOS has, and one block with its key schedule,
 * beside nettle's and OpenSSL's DES on the same bytes. */
#define OPENSSL_SUPPRESS_DEPRECATED
#include <nettle/cbc.h>
#include <nettle/des.h>
#include <openssl/des.h>
#include <stdint.h>
#include <stdio.h>
#include <stdlib.h>

#include "../host/khlongsit.h"
#include "clock.h"

enum { MOST = 4096, KSM = 232, LENGTHS = 3, PEERS = 3 };

static const uint8_t key_bytes[KHL_KEY] = {0x01, 0x23, 0x45, 0x67, 0x89, 0xAB, 0xCD, 0xEF};
static const uint64_t key_number = 0x0123456789ABCDEF;
static size_t lengths[LENGTHS] = {MOST, KSM, KHL_KEY};
static const char *const peers[PEERS] = {"ours", "nettle", "OpenSSL"};
static uint8_t text[MOST], output[MOST];
static uint32_t mac;
static size_t places[PEERS][LENGTHS];

static void ours(void *length) { mac = khl_test_mac(key_number, text, *(size_t *)length); }

static void ours_block(void *length) {
    (void)length;
    mac = (uint32_t)(khl_test_encipher(key_number, khl_number(text, KHL_KEY)) >> 32);
}

static void keep_mac(size_t length) { mac = (uint32_t)khl_number(output + length - KHL_KEY, 4); }

static void nettle(void *with) {
    size_t length = *(size_t *)with;
    struct des_ctx context;
    uint8_t start[KHL_KEY] = {0};
    des_set_key(&context, key_bytes);
    cbc_encrypt(&context, (nettle_cipher_func *)des_encrypt, KHL_KEY, start, length, output, text);
    keep_mac(length);
}

static void openssl(void *with) {
    size_t length = *(size_t *)with;
    DES_key_schedule schedule;
    DES_cblock start = {0};
    DES_set_key_unchecked((const_DES_cblock *)key_bytes, &schedule);
    DES_ncbc_encrypt(text, output, (long)length, &schedule, &start, DES_ENCRYPT);
    keep_mac(length);
}

void add_cipher_works(void) {
    static void (*const works[PEERS])(void *) = {ours, nettle, openssl};
    for (int i = 0; i < MOST; i++)
        text[i] = (uint8_t)(i * 7 + i / 256);
    for (int i = 0; i < LENGTHS; i++) {
        uint32_t first = 0;
        for (int peer = 0; peer < PEERS; peer++) {
            void (*work)(void *) = peer == 0 && lengths[i] == KHL_KEY ? ours_block : works[peer];
            work(&lengths[i]);
            if (peer == 0)
                first = mac;
            if (mac != first) {
                fprintf(stderr, "over %zu bytes %s has %08X, we %08X\n", lengths[i], peers[peer], (unsigned)mac,
                        (unsigned)first);
                exit(1);
            }
            places[peer][i] = add_work(work, &lengths[i]);
        }
    }
}

double block_time(void) { return time_of(places[0][0]) * KHL_KEY / MOST; }
double scheduled_time(void) { return time_of(places[0][LENGTHS - 1]); }

void print_cipher(void) {
    static const char *const words[LENGTHS] = {"MAC over 4096 bytes", "MAC over 232 bytes",
                                               "one block with its key schedule"};
    for (int i = 0; i < LENGTHS; i++)
        for (int peer = 1; peer < PEERS; peer++) {
            char of[80];
            snprintf(of, sizeof of, "%s, beside %s", words[i], peers[peer]);
            print_row("cipher", of, time_of(places[0][i]) / time_of(places[peer][i]), "times");
        }
    print_row("cipher", words[1], time_of(places[0][1]) / block_time(), "blocks");
    print_row("cipher", words[2], scheduled_time() / block_time(), "blocks");
}
