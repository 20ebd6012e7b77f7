// SHA-256 unrolled by hand: a circular schedule of 16 words, made as the steps use it, and eight
// steps at a time, in which the names of the working variables rotate and not their values.
#include "sha256.h"

#define STEP(a, b, c, d, e, f, g, h, t, w)                       \
    do {                                                         \
        uint32_t t1 = h + SUM1(e) + CH(e, f, g) + K[t] + (w);    \
        d += t1;                                                 \
        h = t1 + SUM0(a) + MAJ(a, b, c);                         \
    } while (0)

#define FIRST(i) w[i]
#define NEXT(i) \
    (w[i] += SIGMA1(w[((i) + 14) & 15]) + w[((i) + 9) & 15] + SIGMA0(w[((i) + 1) & 15]))

#define EIGHT(W, t, i)                             \
    STEP(a, b, c, d, e, f, g, h, (t), W(i));       \
    STEP(h, a, b, c, d, e, f, g, (t) + 1, W(i + 1)); \
    STEP(g, h, a, b, c, d, e, f, (t) + 2, W(i + 2)); \
    STEP(f, g, h, a, b, c, d, e, (t) + 3, W(i + 3)); \
    STEP(e, f, g, h, a, b, c, d, (t) + 4, W(i + 4)); \
    STEP(d, e, f, g, h, a, b, c, (t) + 5, W(i + 5)); \
    STEP(c, d, e, f, g, h, a, b, (t) + 6, W(i + 6)); \
    STEP(b, c, d, e, f, g, h, a, (t) + 7, W(i + 7))

static void compress(uint32_t hash[8], const uint8_t *block) {
    uint32_t w[16];
    for (int t = 0; t < 16; t++) w[t] = word(block + 4 * t);
    uint32_t a = hash[0], b = hash[1], c = hash[2], d = hash[3];
    uint32_t e = hash[4], f = hash[5], g = hash[6], h = hash[7];
    EIGHT(FIRST, 0, 0);
    EIGHT(FIRST, 8, 8);
    EIGHT(NEXT, 16, 0);
    EIGHT(NEXT, 24, 8);
    EIGHT(NEXT, 32, 0);
    EIGHT(NEXT, 40, 8);
    EIGHT(NEXT, 48, 0);
    EIGHT(NEXT, 56, 8);
    hash[0] += a;
    hash[1] += b;
    hash[2] += c;
    hash[3] += d;
    hash[4] += e;
    hash[5] += f;
    hash[6] += g;
    hash[7] += h;
}

void unrolled_sha256(const uint8_t *message, size_t length, uint8_t *out) { digest(message, length, out); }
