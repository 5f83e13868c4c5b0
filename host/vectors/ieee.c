/* Vectors of the single operations of IEEE 754, from the C library and the compiler of this machine, for crates/run_ieee. No code of ours is in them.
 *
 *   gcc -O2 -ffp-contract=off -o /tmp/vectors host/vectors/ieee.c -lm
 *   /tmp/vectors > crates/run_ieee/data/vectors.bin
 *
 * data/vectors.bin is the output. Where a machine has other NaN patterns the file is the same: an answer that is not a number is written as 2143289344.
 * A record is five words of 32 bits, most significant byte first: the operation, three operands and the answer; floats by their bits, signed numbers in two's complement.
 *   1 fmaf(a, b, c)   2 sqrtf(a)   3 (float) of the double with the words a, b   4 floorf(a)   5 rintf(a)   6 (int32_t) a, saturating, 0 for a NaN
 *   7 fabsf(a)   8 a itself   9 sqrtf(fmaf(a, a, b * b))   10 as 6 of floorf(a)   11 as 6 of rintf(a)
 * Counts of each operation go to standard error.
 */
#include <math.h>
#include <stdint.h>
#include <stdio.h>
#include <string.h>

static long count[12];

static float of(uint32_t b) { float x; memcpy(&x, &b, 4); return x; }
static uint32_t bits(float x) { uint32_t b; memcpy(&b, &x, 4); return x != x ? 2143289344u : b; }
static double of64(uint64_t b) { double x; memcpy(&x, &b, 8); return x; }
static uint64_t bits64(double x) { uint64_t b; memcpy(&b, &x, 8); return b; }

static void put(uint32_t w) { putchar(w >> 24); putchar(w >> 16 & 255); putchar(w >> 8 & 255); putchar(w & 255); }
static void record(int op, uint32_t a, uint32_t b, uint32_t c, uint32_t want) { count[op]++; put(op); put(a); put(b); put(c); put(want); }

static uint32_t whole(float x) {
    if (x != x) return 0;
    if (x >= 2147483648.0f) return 0x7fffffffu;
    if (x <= -2147483648.0f) return 0x80000000u;
    return (uint32_t)(int32_t)x;
}

static void fused(uint32_t a, uint32_t b, uint32_t c) { record(1, a, b, c, bits(fmaf(of(a), of(b), of(c)))); }
static void root(uint32_t a) { record(2, a, 0, 0, bits(sqrtf(of(a)))); }
static void narrow(uint64_t d) { volatile double x = of64(d); record(3, d >> 32, (uint32_t)d, 0, bits((float)x)); }
static void wholes(uint32_t a) {
    record(4, a, 0, 0, bits(floorf(of(a))));
    record(5, a, 0, 0, bits(rintf(of(a))));
    record(6, a, 0, 0, whole(of(a)));
    record(10, a, 0, 0, whole(floorf(of(a))));
    record(11, a, 0, 0, whole(rintf(of(a))));
}
static void plain(uint32_t a) { record(7, a, 0, 0, bits(fabsf(of(a)))); record(8, a, 0, 0, bits(of(a))); }
static void length(uint32_t a, uint32_t b) { volatile float q = of(b) * of(b); record(9, a, b, 0, bits(sqrtf(fmaf(of(a), of(a), q)))); }

static uint64_t state = 0x9e3779b97f4a7c15u;
static uint64_t any(void) { state ^= state << 13; state ^= state >> 7; state ^= state << 17; return state * 0x2545f4914f6cdd1du; }
static uint32_t any32(void) { return any() >> 32; }
static uint32_t upto(uint32_t n) { return (any() >> 32) % n; }
/* a float with a random sign and significand, and an exponent's field from lo to hi */
static uint32_t field(uint32_t lo, uint32_t hi) { return (any32() & 0x807fffffu) | (lo + upto(hi - lo + 1)) << 23; }

static const uint32_t special[] = {
    0x00000000, 0x00000001, 0x00000002, 0x007fffff, 0x00800000, 0x00800001, /* zero, subnormals, the smallest normal numbers */
    0x3effffff, 0x3f000000, 0x3f7fffff, 0x3f800000, 0x3f800001, 0x3fc00000, 0x40200000, /* around a half and one, 1.5, 2.5 */
    0x33800000, 0x4b000000, 0x4b000001, 0x4b7fffff, 0x4effffff, 0x4f000000, /* 2^-24, 2^23, 2^24 - 1, around 2^31 */
    0x7f7fffff, 0x7f800000 /* the largest, infinity */
};
static const uint32_t nans[] = { 0x7f800001, 0x7fc00000, 0xffc00001, 0xffffffff };
enum { SPECIALS = sizeof special / sizeof *special, ALL = 2 * SPECIALS + 4 };
static uint32_t all(int i) { return i < 2 * SPECIALS ? special[i / 2] | (uint32_t)(i % 2) << 31 : nans[i - 2 * SPECIALS]; }

/* a sign, at random */
static uint32_t sign(void) { return any32() & 0x80000000u; }
/* two floats whose exponents' fields add up so that the product's would be from lo to hi */
static void factors(int lo, int hi, uint32_t *a, uint32_t *b) {
    int e, d;
    do { e = 1 + (int)upto(254); d = 127 + lo + (int)upto(hi - lo + 1) - e; } while (d < 1 || d > 254);
    *a = field(e, e);
    *b = field(d, d);
}

static void fused_vectors(void) {
    uint32_t a, b;
    /* every special size with every other and every third, the product's sign like the third's and unlike it */
    for (int i = 0; i < SPECIALS; i++)
        for (int j = 0; j < SPECIALS; j++)
            for (int k = 0; k < SPECIALS; k++)
                for (int unlike = 0; unlike < 2; unlike++) {
                    a = special[i] | sign();
                    b = special[j] | sign();
                    fused(a, b, special[k] | (((a ^ b) & 0x80000000u) ^ (uint32_t)unlike << 31));
                }
    for (int i = 0; i < ALL; i++)
        for (int j = 0; j < 4; j++) {
            fused(all(i), nans[j], all((i * 7) % ALL));
            fused(nans[j], all(i), all((i * 5) % ALL));
            fused(all(i), all((i * 3) % ALL), nans[j]);
        }
    for (int i = 0; i < 1500; i++) fused(any32(), any32(), any32());
    for (int i = 0; i < 2000; i++) fused(field(100, 150), field(100, 150), field(90, 170));
    /* cancellation: c is minus the rounded product, or next to it */
    for (int i = 0; i < 2000; i++) { a = field(60, 190); b = field(60, 190); fused(a, b, (bits(of(a) * of(b)) ^ 0x80000000u) + upto(3) - 1); }
    /* ties: ±1 * b and half a unit of b's last digit, or the float next to it */
    for (int i = 0; i < 1500; i++) { uint32_t e = 40 + upto(180); fused(0x3f800000u | sign(), field(e, e), (((e - 24) << 23) + upto(3) - 1) | sign()); }
    /* products of 25 digits, the last one set, which are ties, and a far smaller c that decides them: rounding twice goes wrong here */
    for (int i = 0; i < 2000; i++) { uint32_t e = 80 + upto(60); fused((field(e, e) & 0xffffffu) | e << 23 | 1 | sign(), 0x3fc00000u, ((1 + upto(e - 30)) << 23) | sign()); }
    /* subnormal results, and the border to the normal ones */
    for (int i = 0; i < 2000; i++) { factors(-25, 2, &a, &b); fused(a, b, i % 4 == 0 ? sign() : field(0, 2)); }
    /* around the largest */
    for (int i = 0; i < 1000; i++) { factors(252, 256, &a, &b); fused(a, b, field(228, 254)); }
    for (int i = 0; i < 200; i++) fused(0x7f7fffffu - upto(3), 0x3f800000u + upto(3) - 1, ((uint32_t)(229 + upto(3)) << 23) + upto(3) - 1 + sign());
}

static void root_vectors(void) {
    for (int i = 0; i < ALL; i++) root(all(i));
    for (int i = 0; i < 2500; i++) root(any32() & 0x7fffffffu);
    for (int i = 0; i < 300; i++) root(any32());
    for (int i = 0; i < 500; i++) root(any32() & 0x7fffffu);
    /* squares of floats of 12 digits, and their neighbours: roots that are exact, or nearly */
    for (int i = 0; i < 1200; i++) { float q = of(((uint32_t)(70 + upto(110)) << 23) | (any32() & 0x7ff000u)); root(bits(q * q) + upto(3) - 1); }
    /* squares of midpoints between two floats, cut to a float: the root is next to a midpoint */
    for (int i = 0; i < 1200; i++) { double q = 8388608.0 + upto(8388608) + 0.5; root(bits((float)(q * q)) + upto(3) - 1); }
}

static void narrow_vectors(void) {
    for (int i = 0; i < ALL; i++) {
        uint64_t d = bits64((double)of(all(i)));
        for (int j = -1; j <= 1; j++) { narrow(d + j); narrow(d + (uint64_t)((int64_t)j * 0x10000000)); }
    }
    static const uint64_t s[] = { 0, 1, 0x000fffffffffffffu, 0x0010000000000000u, 0x7fefffffffffffffu, 0x7ff0000000000000u, 0x7ff0000000000001u, 0x7ff8000000000000u, 0x7fffffffffffffffu,
        0x3690000000000000u, 0x3690000000000001u, 0x36a0000000000000u, 0x3810000000000000u, 0x380fffffffffffffu, 0x380fffffe0000000u, 0x380ffffff0000000u, 0x47efffffe0000000u, 0x47efffffefffffffu, 0x47effffff0000000u, 0x47f0000000000000u };
    for (unsigned i = 0; i < sizeof s / sizeof *s; i++) { narrow(s[i]); narrow(s[i] | 0x8000000000000000u); }
    for (int i = 0; i < 1500; i++) narrow(any());
    for (int i = 0; i < 1500; i++) narrow((any() & 0x800fffffffffffffu) | (uint64_t)(880 + upto(290)) << 52);
    /* the middle between two f32s, and next to it */
    for (int i = 0; i < 2000; i++) narrow(((any() & 0x800fffffe0000000u) | (uint64_t)(896 + upto(256)) << 52 | 0x10000000u) + upto(3) - 1);
    /* subnormal results, with their middles */
    for (int i = 0; i < 2000; i++) { uint32_t e = 872 + upto(26), drop = 29 + (897 - e); uint64_t half = drop < 53 ? 1ull << (drop - 1) : 0; narrow(((any() & 0x800fffffffffffffu & ~(2 * half - 1)) | half | (uint64_t)e << 52) + (i % 2 ? upto(3) - 1u : 0)); }
}

static void whole_vectors(void) {
    for (int i = 0; i < ALL; i++) wholes(all(i));
    for (int i = 0; i < 500; i++) wholes(any32());
    for (int i = 0; i < 1000; i++) wholes(field(120, 160));
    /* k, k + 1/2 and their neighbours, either sign */
    for (int i = 0; i < 1000; i++) wholes((bits(upto(1u << upto(24)) + 0.5f * upto(2)) + upto(3) - 1) ^ sign());
    for (int i = 0; i < 60; i++) wholes((0x4f000000u + i - 30) ^ (uint32_t)(i % 2) << 31);
}

/* where rounding twice, or a sign of zero, goes wrong */
static void corner_vectors(void) {
    /* a * b is 2^-150 less 2 d^2 of 2^-197, and c so many times 2^-149: beside a middle between two subnormals, which an f64 takes for the middle itself */
    for (int i = 0; i < 400; i++) {
        uint32_t d = 1 + upto(40), e = 1 + upto(102), c = 0x100000 + upto(0x700000);
        fused((e << 23 | d) ^ sign(), ((104 - e - 1) << 23 | (0x800000 - 2 * d)) ^ sign(), c ^ sign());
    }
    /* sums that cancel to nothing, which are +0: products of 12 digits by 12, down to the subnormals */
    for (int i = 0; i < 200; i++) {
        uint32_t a = field(30, 190) & 0xfffff000u, b = field(30, 190) & 0xfffff000u;
        fused(a, b, bits(of(a) * of(b)) ^ 0x80000000u);
    }
    /* zeros of every sign */
    for (int i = 0; i < 8; i++) fused((uint32_t)i << 31, 0x3f800000u | (uint32_t)(i / 2) << 31, (uint32_t)(i / 4) << 31);
}

int main(void) {
    fused_vectors();
    root_vectors();
    narrow_vectors();
    whole_vectors();
    for (int i = 0; i < ALL; i++) plain(all(i));
    for (int i = 0; i < 400; i++) plain(any32());
    for (int i = 0; i < ALL; i++) for (int j = 0; j < ALL; j += 1 + i % 2) length(all(i), all(j));
    for (int i = 0; i < 1500; i++) length(field(100, 150), field(100, 150));
    for (int i = 0; i < 500; i++) length(any32(), any32());
    for (int i = 0; i < 400; i++) length(field(50, 66), field(50, 66));
    corner_vectors();
    for (int i = 1; i < 12; i++) fprintf(stderr, "%d: %ld\n", i, count[i]);
    return 0;
}
