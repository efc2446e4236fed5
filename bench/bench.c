/* Measures the proved SHA-256 and HMAC-SHA-256 against a straightforward implementation in C, on the same input, in one
 * run. Each figure is the best of ROUNDS measurements of processor time, which alternate between the two sides. The
 * program ends with status 1 if the two sides ever disagree. */
#include <stdint.h>
#include <stdio.h>
#include <stdlib.h>
#include <string.h>
#include <time.h>

/* The proved side: libsha256_c.a. */
typedef struct {
    uint32_t inner[8];
    uint32_t outer[8];
} sealer;

void sha256_hash(const uint8_t *message, size_t length, uint8_t digest[32]);
void sha256_hmac(const uint8_t *key, size_t key_length, const uint8_t *message, size_t length, uint8_t seal[32]);
void sha256_prepare(const uint8_t *key, size_t key_length, sealer *prepared);
void sha256_seal(const sealer *prepared, const uint8_t *message, size_t length, uint8_t seal[32]);

/* The side in C. */
static const uint32_t K[64] = {
    0x428a2f98, 0x71374491, 0xb5c0fbcf, 0xe9b5dba5, 0x3956c25b, 0x59f111f1, 0x923f82a4, 0xab1c5ed5,
    0xd807aa98, 0x12835b01, 0x243185be, 0x550c7dc3, 0x72be5d74, 0x80deb1fe, 0x9bdc06a7, 0xc19bf174,
    0xe49b69c1, 0xefbe4786, 0x0fc19dc6, 0x240ca1cc, 0x2de92c6f, 0x4a7484aa, 0x5cb0a9dc, 0x76f988da,
    0x983e5152, 0xa831c66d, 0xb00327c8, 0xbf597fc7, 0xc6e00bf3, 0xd5a79147, 0x06ca6351, 0x14292967,
    0x27b70a85, 0x2e1b2138, 0x4d2c6dfc, 0x53380d13, 0x650a7354, 0x766a0abb, 0x81c2c92e, 0x92722c85,
    0xa2bfe8a1, 0xa81a664b, 0xc24b8b70, 0xc76c51a3, 0xd192e819, 0xd6990624, 0xf40e3585, 0x106aa070,
    0x19a4c116, 0x1e376c08, 0x2748774c, 0x34b0bcb5, 0x391c0cb3, 0x4ed8aa4a, 0x5b9cca4f, 0x682e6ff3,
    0x748f82ee, 0x78a5636f, 0x84c87814, 0x8cc70208, 0x90befffa, 0xa4506ceb, 0xbef9a3f7, 0xc67178f2,
};

static const uint32_t START[8] = {
    0x6a09e667, 0xbb67ae85, 0x3c6ef372, 0xa54ff53a, 0x510e527f, 0x9b05688c, 0x1f83d9ab, 0x5be0cd19,
};

static inline uint32_t rotr(uint32_t x, int n) { return (x >> n) | (x << (32 - n)); }

static void c_block(uint32_t s[8], const uint8_t *p) {
    uint32_t w[64];
    for (int t = 0; t < 16; t++)
        w[t] = (uint32_t)p[4 * t] << 24 | (uint32_t)p[4 * t + 1] << 16 | (uint32_t)p[4 * t + 2] << 8 | p[4 * t + 3];
    for (int t = 16; t < 64; t++) {
        uint32_t s0 = rotr(w[t - 15], 7) ^ rotr(w[t - 15], 18) ^ (w[t - 15] >> 3);
        uint32_t s1 = rotr(w[t - 2], 17) ^ rotr(w[t - 2], 19) ^ (w[t - 2] >> 10);
        w[t] = s1 + w[t - 7] + s0 + w[t - 16];
    }
    uint32_t a = s[0], b = s[1], c = s[2], d = s[3], e = s[4], f = s[5], g = s[6], h = s[7];
    for (int t = 0; t < 64; t++) {
        uint32_t t1 = h + (rotr(e, 6) ^ rotr(e, 11) ^ rotr(e, 25)) + ((e & f) ^ (~e & g)) + K[t] + w[t];
        uint32_t t2 = (rotr(a, 2) ^ rotr(a, 13) ^ rotr(a, 22)) + ((a & b) ^ (a & c) ^ (b & c));
        h = g, g = f, f = e, e = d + t1, d = c, c = b, b = a, a = t1 + t2;
    }
    s[0] += a, s[1] += b, s[2] += c, s[3] += d, s[4] += e, s[5] += f, s[6] += g, s[7] += h;
}

typedef struct {
    uint32_t words[8];
    uint8_t tail[64];
    uint64_t total;
} c_state;

static void c_init(c_state *s) {
    memcpy(s->words, START, sizeof START);
    s->total = 0;
}

static void c_update(c_state *s, const uint8_t *p, size_t n) {
    size_t held = s->total % 64;
    s->total += n;
    if (held && n >= 64 - held) {
        memcpy(s->tail + held, p, 64 - held);
        c_block(s->words, s->tail);
        p += 64 - held, n -= 64 - held, held = 0;
    }
    if (!held)
        for (; n >= 64; p += 64, n -= 64)
            c_block(s->words, p);
    if (n)
        memcpy(s->tail + held, p, n);
}

static void c_finish(c_state *s, uint8_t digest[32]) {
    size_t held = s->total % 64;
    uint64_t bits = s->total * 8;
    s->tail[held++] = 0x80;
    if (held > 56) {
        memset(s->tail + held, 0, 64 - held);
        c_block(s->words, s->tail);
        held = 0;
    }
    memset(s->tail + held, 0, 56 - held);
    for (int i = 0; i < 8; i++)
        s->tail[56 + i] = (uint8_t)(bits >> (56 - 8 * i));
    c_block(s->words, s->tail);
    for (int i = 0; i < 32; i++)
        digest[i] = (uint8_t)(s->words[i / 4] >> (24 - 8 * (i % 4)));
}

static void c_hash(const uint8_t *p, size_t n, uint8_t digest[32]) {
    c_state s;
    c_init(&s);
    c_update(&s, p, n);
    c_finish(&s, digest);
}

/* HMAC as the RFC states it, four compressions for a short message. */
static void c_hmac(const uint8_t *key, size_t k, const uint8_t *p, size_t n, uint8_t seal[32]) {
    uint8_t block[64] = {0}, pad[64], inner[32];
    c_state s;
    if (k > 64)
        c_hash(key, k, block);
    else
        memcpy(block, key, k);
    for (int i = 0; i < 64; i++)
        pad[i] = block[i] ^ 0x36;
    c_init(&s), c_update(&s, pad, 64), c_update(&s, p, n), c_finish(&s, inner);
    for (int i = 0; i < 64; i++)
        pad[i] = block[i] ^ 0x5c;
    c_init(&s), c_update(&s, pad, 64), c_update(&s, inner, 32), c_finish(&s, seal);
}

/* Measurement. */
enum { BULK = 4 << 20, SEALS = 20000, ROUNDS = 60, STATEMENT = 48, KEY = 32 };

static double now(void) {
    struct timespec t;
    clock_gettime(CLOCK_PROCESS_CPUTIME_ID, &t);
    return (double)t.tv_sec + (double)t.tv_nsec * 1e-9;
}

static void keep_best(double *best, double seconds) {
    if (*best == 0 || seconds < *best)
        *best = seconds;
}

static void fail(const char *what) {
    fprintf(stderr, "the two sides disagree: %s\n", what);
    exit(1);
}

static void compare(const uint8_t *input) {
    uint8_t ours[32], theirs[32];
    sealer prepared;
    for (size_t n = 0; n < 300; n++) {
        sha256_hash(input, n, ours);
        c_hash(input, n, theirs);
        if (memcmp(ours, theirs, 32))
            fail("a digest");
        sha256_hmac(input, n, input, 300 - n, ours);
        c_hmac(input, n, input, 300 - n, theirs);
        if (memcmp(ours, theirs, 32))
            fail("an HMAC");
        sha256_prepare(input, n, &prepared);
        sha256_seal(&prepared, input, 300 - n, ours);
        if (memcmp(ours, theirs, 32))
            fail("a seal under a prepared key");
    }
}

static void bulk(const uint8_t *input) {
    uint8_t ours[32], theirs[32];
    double proved = 0, plain = 0;
    for (int round = 0; round < ROUNDS; round++) {
        double t = now();
        sha256_hash(input, BULK, ours);
        keep_best(&proved, now() - t);
        t = now();
        c_hash(input, BULK, theirs);
        keep_best(&plain, now() - t);
        if (memcmp(ours, theirs, 32))
            fail("the bulk digest");
    }
    printf("SHA-256 of %d MiB:       proved %7.1f MB/s   C %7.1f MB/s   ratio %.2f\n", BULK >> 20, BULK / proved / 1e6,
           BULK / plain / 1e6, plain / proved);
}

static void seals(const uint8_t *input) {
    uint8_t ours[32] = {0}, theirs[32] = {0};
    uint8_t sum_ours = 0, sum_theirs = 0;
    double proved = 0, plain = 0;
    sealer prepared;
    sha256_prepare(input, KEY, &prepared);
    for (int round = 0; round < ROUNDS; round++) {
        double t = now();
        for (int i = 0; i < SEALS; i++) {
            sha256_seal(&prepared, input + i, STATEMENT, ours);
            sum_ours ^= ours[i % 32];
        }
        keep_best(&proved, now() - t);
        t = now();
        for (int i = 0; i < SEALS; i++) {
            c_hmac(input, KEY, input + i, STATEMENT, theirs);
            sum_theirs ^= theirs[i % 32];
        }
        keep_best(&plain, now() - t);
        if (memcmp(ours, theirs, 32) || sum_ours != sum_theirs)
            fail("a seal");
    }
    printf("seals of %d-byte texts:  proved %7.0f /s (prepared key)   C %7.0f /s (four compressions)   ratio %.2f\n",
           STATEMENT, SEALS / proved, SEALS / plain, plain / proved);
}

int main(void) {
    uint8_t *input = malloc(BULK);
    uint32_t x = 1;
    if (!input)
        return 2;
    for (size_t i = 0; i < BULK; i++) {
        x = x * 1664525 + 1013904223;
        input[i] = (uint8_t)(x >> 24);
    }
    compare(input);
    bulk(input);
    seals(input);
    free(input);
    return 0;
}
