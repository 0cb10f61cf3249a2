/* HMAC-SHA-256 (RFC 2104, FIPS 180-4) in place of a security module, for a bench. */
#include "hsm.h"
#include <string.h>

enum { BLOCK = 64 };

static const uint32_t rounds[64] = {
    0x428a2f98, 0x71374491, 0xb5c0fbcf, 0xe9b5dba5, 0x3956c25b, 0x59f111f1, 0x923f82a4, 0xab1c5ed5,
    0xd807aa98, 0x12835b01, 0x243185be, 0x550c7dc3, 0x72be5d74, 0x80deb1fe, 0x9bdc06a7, 0xc19bf174,
    0xe49b69c1, 0xefbe4786, 0x0fc19dc6, 0x240ca1cc, 0x2de92c6f, 0x4a7484aa, 0x5cb0a9dc, 0x76f988da,
    0x983e5152, 0xa831c66d, 0xb00327c8, 0xbf597fc7, 0xc6e00bf3, 0xd5a79147, 0x06ca6351, 0x14292967,
    0x27b70a85, 0x2e1b2138, 0x4d2c6dfc, 0x53380d13, 0x650a7354, 0x766a0abb, 0x81c2c92e, 0x92722c85,
    0xa2bfe8a1, 0xa81a664b, 0xc24b8b70, 0xc76c51a3, 0xd192e819, 0xd6990624, 0xf40e3585, 0x106aa070,
    0x19a4c116, 0x1e376c08, 0x2748774c, 0x34b0bcb5, 0x391c0cb3, 0x4ed8aa4a, 0x5b9cca4f, 0x682e6ff3,
    0x748f82ee, 0x78a5636f, 0x84c87814, 0x8cc70208, 0x90befffa, 0xa4506ceb, 0xbef9a3f7, 0xc67178f2,
};

struct hash {
    uint32_t state[8];
    uint8_t block[BLOCK];
    uint64_t length;
};

static uint32_t turn(uint32_t x, int by) { return x >> by | x << (32 - by); }

static void mix(struct hash *h) {
    uint32_t w[64], s[8];
    for (int k = 0; k < 16; k++) {
        const uint8_t *at = h->block + 4 * k;
        w[k] = (uint32_t)at[0] << 24 | (uint32_t)at[1] << 16 | (uint32_t)at[2] << 8 | at[3];
    }
    for (int k = 16; k < 64; k++) {
        uint32_t a = w[k - 15], b = w[k - 2];
        w[k] = w[k - 16] + w[k - 7] + (turn(a, 7) ^ turn(a, 18) ^ a >> 3)
            + (turn(b, 17) ^ turn(b, 19) ^ b >> 10);
    }
    memcpy(s, h->state, sizeof s);
    for (int k = 0; k < 64; k++) {
        uint32_t one = s[7] + (turn(s[4], 6) ^ turn(s[4], 11) ^ turn(s[4], 25))
            + ((s[4] & s[5]) ^ (~s[4] & s[6])) + rounds[k] + w[k];
        uint32_t two = (turn(s[0], 2) ^ turn(s[0], 13) ^ turn(s[0], 22))
            + ((s[0] & s[1]) ^ (s[0] & s[2]) ^ (s[1] & s[2]));
        memmove(s + 1, s, 7 * sizeof *s);
        s[4] += one;
        s[0] = one + two;
    }
    for (int k = 0; k < 8; k++) {
        h->state[k] += s[k];
    }
}

static void start(struct hash *h) {
    static const uint32_t first[8] = {
        0x6a09e667, 0xbb67ae85, 0x3c6ef372, 0xa54ff53a, 0x510e527f, 0x9b05688c, 0x1f83d9ab,
        0x5be0cd19,
    };
    memcpy(h->state, first, sizeof first);
    h->length = 0;
}

static void add(struct hash *h, const uint8_t *octets, size_t n) {
    for (size_t k = 0; k < n; k++) {
        h->block[h->length++ % BLOCK] = octets[k];
        if (h->length % BLOCK == 0) {
            mix(h);
        }
    }
}

static void end(struct hash *h, uint8_t out[HSM_TAG]) {
    uint64_t bits = h->length * 8;
    for (uint8_t octet = 0x80; h->length % BLOCK != 56 || octet != 0; octet = 0) {
        add(h, &octet, 1);
    }
    for (int k = 7; k >= 0; k--) {
        add(h, &(uint8_t){ (uint8_t)(bits >> 8 * k) }, 1);
    }
    for (int k = 0; k < HSM_TAG; k++) {
        out[k] = (uint8_t)(h->state[k / 4] >> (24 - 8 * (k % 4)));
    }
}

static void start_with(struct hash *h, const uint8_t key[HSM_KEY], uint8_t pad) {
    uint8_t block[BLOCK];
    memset(block, pad, sizeof block);
    for (int k = 0; k < HSM_KEY; k++) {
        block[k] ^= key[k];
    }
    start(h);
    add(h, block, sizeof block);
}

void hsm_tag(const uint8_t key[HSM_KEY], const uint8_t *octets, size_t n, uint8_t tag[HSM_TAG]) {
    struct hash h;
    start_with(&h, key, 0x36);
    add(&h, octets, n);
    end(&h, tag);
    start_with(&h, key, 0x5c);
    add(&h, tag, HSM_TAG);
    end(&h, tag);
}
