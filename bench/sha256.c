// Two million chained SHA-256 of 32 bytes, to compare with crates/bench_sha256.
#include <stdint.h>
#include <stdio.h>
#include <string.h>

static const uint32_t CONSTANTS[64] = {
    0x428a2f98, 0x71374491, 0xb5c0fbcf, 0xe9b5dba5, 0x3956c25b, 0x59f111f1, 0x923f82a4, 0xab1c5ed5,
    0xd807aa98, 0x12835b01, 0x243185be, 0x550c7dc3, 0x72be5d74, 0x80deb1fe, 0x9bdc06a7, 0xc19bf174,
    0xe49b69c1, 0xefbe4786, 0x0fc19dc6, 0x240ca1cc, 0x2de92c6f, 0x4a7484aa, 0x5cb0a9dc, 0x76f988da,
    0x983e5152, 0xa831c66d, 0xb00327c8, 0xbf597fc7, 0xc6e00bf3, 0xd5a79147, 0x06ca6351, 0x14292967,
    0x27b70a85, 0x2e1b2138, 0x4d2c6dfc, 0x53380d13, 0x650a7354, 0x766a0abb, 0x81c2c92e, 0x92722c85,
    0xa2bfe8a1, 0xa81a664b, 0xc24b8b70, 0xc76c51a3, 0xd192e819, 0xd6990624, 0xf40e3585, 0x106aa070,
    0x19a4c116, 0x1e376c08, 0x2748774c, 0x34b0bcb5, 0x391c0cb3, 0x4ed8aa4a, 0x5b9cca4f, 0x682e6ff3,
    0x748f82ee, 0x78a5636f, 0x84c87814, 0x8cc70208, 0x90befffa, 0xa4506ceb, 0xbef9a3f7, 0xc67178f2,
};

static const uint32_t INITIAL[8] = {
    0x6a09e667, 0xbb67ae85, 0x3c6ef372, 0xa54ff53a, 0x510e527f, 0x9b05688c, 0x1f83d9ab, 0x5be0cd19,
};

typedef struct {
    uint32_t state[8];
    uint8_t block[64];
    uint64_t total;
} Hasher;

static uint32_t rotate_right(uint32_t x, int n) { return (x >> n) | (x << (32 - n)); }
static uint32_t choose(uint32_t x, uint32_t y, uint32_t z) { return (x & y) ^ (~x & z); }
static uint32_t majority(uint32_t x, uint32_t y, uint32_t z) { return (x & y) ^ (x & z) ^ (y & z); }
static uint32_t big_sigma0(uint32_t x) { return rotate_right(x, 2) ^ rotate_right(x, 13) ^ rotate_right(x, 22); }
static uint32_t big_sigma1(uint32_t x) { return rotate_right(x, 6) ^ rotate_right(x, 11) ^ rotate_right(x, 25); }
static uint32_t small_sigma0(uint32_t x) { return rotate_right(x, 7) ^ rotate_right(x, 18) ^ (x >> 3); }
static uint32_t small_sigma1(uint32_t x) { return rotate_right(x, 17) ^ rotate_right(x, 19) ^ (x >> 10); }

static uint32_t read_u32(const uint8_t *b) {
    return (uint32_t)b[0] << 24 | (uint32_t)b[1] << 16 | (uint32_t)b[2] << 8 | (uint32_t)b[3];
}

static void turn(uint32_t a, uint32_t b, uint32_t c, uint32_t *d, uint32_t e, uint32_t f, uint32_t g, uint32_t *h, uint32_t k, uint32_t w) {
    uint32_t t1 = *h + big_sigma1(e) + choose(e, f, g) + k + w;
    uint32_t t2 = big_sigma0(a) + majority(a, b, c);
    *d += t1;
    *h = t1 + t2;
}

static uint32_t own(const uint8_t *block, uint32_t *w, int t) { return w[t] = read_u32(block + 4 * t); }

static uint32_t mixed(uint32_t *w, int t) {
    return w[t] = small_sigma1(w[t - 2]) + w[t - 7] + small_sigma0(w[t - 15]) + w[t - 16];
}

static void compress(uint32_t *state, const uint8_t *block) {
    uint32_t w[64];
    uint32_t a = state[0], b = state[1], c = state[2], d = state[3];
    uint32_t e = state[4], f = state[5], g = state[6], h = state[7];
    for (int t = 0; t < 16; t += 8) {
        turn(a, b, c, &d, e, f, g, &h, CONSTANTS[t], own(block, w, t));
        turn(h, a, b, &c, d, e, f, &g, CONSTANTS[t + 1], own(block, w, t + 1));
        turn(g, h, a, &b, c, d, e, &f, CONSTANTS[t + 2], own(block, w, t + 2));
        turn(f, g, h, &a, b, c, d, &e, CONSTANTS[t + 3], own(block, w, t + 3));
        turn(e, f, g, &h, a, b, c, &d, CONSTANTS[t + 4], own(block, w, t + 4));
        turn(d, e, f, &g, h, a, b, &c, CONSTANTS[t + 5], own(block, w, t + 5));
        turn(c, d, e, &f, g, h, a, &b, CONSTANTS[t + 6], own(block, w, t + 6));
        turn(b, c, d, &e, f, g, h, &a, CONSTANTS[t + 7], own(block, w, t + 7));
    }
    for (int t = 16; t < 64; t += 8) {
        turn(a, b, c, &d, e, f, g, &h, CONSTANTS[t], mixed(w, t));
        turn(h, a, b, &c, d, e, f, &g, CONSTANTS[t + 1], mixed(w, t + 1));
        turn(g, h, a, &b, c, d, e, &f, CONSTANTS[t + 2], mixed(w, t + 2));
        turn(f, g, h, &a, b, c, d, &e, CONSTANTS[t + 3], mixed(w, t + 3));
        turn(e, f, g, &h, a, b, c, &d, CONSTANTS[t + 4], mixed(w, t + 4));
        turn(d, e, f, &g, h, a, b, &c, CONSTANTS[t + 5], mixed(w, t + 5));
        turn(c, d, e, &f, g, h, a, &b, CONSTANTS[t + 6], mixed(w, t + 6));
        turn(b, c, d, &e, f, g, h, &a, CONSTANTS[t + 7], mixed(w, t + 7));
    }
    state[0] += a;
    state[1] += b;
    state[2] += c;
    state[3] += d;
    state[4] += e;
    state[5] += f;
    state[6] += g;
    state[7] += h;
}

static void start(Hasher *hasher) {
    memcpy(hasher->state, INITIAL, sizeof INITIAL);
    hasher->total = 0;
}

static void absorb(Hasher *hasher, const uint8_t *bytes, size_t length) {
    while (length > 0) {
        size_t filled = hasher->total % 64;
        size_t count = length < 64 - filled ? length : 64 - filled;
        memcpy(hasher->block + filled, bytes, count);
        hasher->total += count;
        if (filled + count == 64)
            compress(hasher->state, hasher->block);
        bytes += count;
        length -= count;
    }
}

static void digest(const Hasher *hasher, uint8_t *out) {
    Hasher ended = *hasher;
    uint8_t mark[64] = {0x80};
    uint8_t bits[8];
    for (int i = 0; i < 8; i++)
        bits[i] = (uint8_t)(hasher->total << 3 >> (56 - 8 * i));
    absorb(&ended, mark, 1 + (119 - hasher->total % 64) % 64);
    absorb(&ended, bits, 8);
    for (int i = 0; i < 8; i++)
        for (int k = 0; k < 4; k++)
            out[4 * i + k] = (uint8_t)(ended.state[i] >> (24 - 8 * k));
}

static void sha256(const uint8_t *message, size_t length, uint8_t *out) {
    Hasher hasher;
    start(&hasher);
    absorb(&hasher, message, length);
    digest(&hasher, out);
}

int main(void) {
    uint8_t value[32] = {0};
    for (int n = 0; n < 2000000; n++)
        sha256(value, 32, value);
    printf("%d %d %d %d\n", value[0], value[1], value[2], value[3]);
    return 0;
}
