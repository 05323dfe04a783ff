/* Writes cases of binary64 arithmetic, one a line: the operation, its operands and what it must give,
 * numbers as the 16 hexadecimal digits of their bits. What must be given comes from the C compiler's
 * own doubles. Nothing here is shared with the crates that are held to it.
 *
 * To make the cases of crates/vectors anew, from the root of the repository:
 *
 *     gcc -O1 -std=c11 -ffp-contract=off -fno-fast-math tools/vectors/vectors.c -lm -o /tmp/vectors
 *     /tmp/vectors > crates/vectors/stdin
 *     echo "$(wc -l < crates/vectors/stdin) cases, 0 wrong" > crates/vectors/stdout
 */
#include <math.h>
#include <stdint.h>
#include <stdio.h>
#include <string.h>

#define QUIET UINT64_C(0x7ff8000000000000)
#define COUNT(list) (sizeof(list) / sizeof((list)[0]))

static double number(uint64_t bits) {
    double x;
    memcpy(&x, &bits, sizeof x);
    return x;
}

static uint64_t pattern(double x) {
    uint64_t bits;
    if (isnan(x)) return QUIET;
    memcpy(&bits, &x, sizeof bits);
    return bits;
}

static uint64_t flag(int yes) { return pattern(yes ? 1.0 : 0.0); }

/* Zeros, subnormals, infinities, NaNs of several patterns, halves, and the neighbours of 1, 2^32,
 * 2^52, 2^53 and of the ends of the range. */
static const uint64_t special[] = {
    UINT64_C(0x0000000000000000), UINT64_C(0x8000000000000000), /* 0, -0 */
    UINT64_C(0x0000000000000001), UINT64_C(0x8000000000000001), /* the smallest subnormals */
    UINT64_C(0x000fffffffffffff), UINT64_C(0x800fffffffffffff), /* the largest subnormals */
    UINT64_C(0x0010000000000000), UINT64_C(0x8010000000000000), /* the smallest normal numbers */
    UINT64_C(0x7fefffffffffffff), UINT64_C(0xffefffffffffffff), /* the largest numbers */
    UINT64_C(0x7ff0000000000000), UINT64_C(0xfff0000000000000), /* the infinities */
    UINT64_C(0x7ff8000000000000), UINT64_C(0xfff8000000000000), /* NaNs */
    UINT64_C(0x7ff0000000000001), UINT64_C(0xfff0000000000001), UINT64_C(0x7fffffffffffffff),
    UINT64_C(0xffffffffffffffff), UINT64_C(0x7ff4123456789abc), UINT64_C(0x3fe0000000000000), /* 0.5 */
    UINT64_C(0xbfe0000000000000), UINT64_C(0x3fdfffffffffffff), UINT64_C(0xbfdfffffffffffff),
    UINT64_C(0x3ff0000000000000), UINT64_C(0xbff0000000000000), /* 1, -1 */
    UINT64_C(0x3fefffffffffffff), UINT64_C(0x3ff0000000000001), UINT64_C(0xbff0000000000001),
    UINT64_C(0x3ca0000000000000), UINT64_C(0x3cb0000000000000), /* 2^-53, 2^-52 */
    UINT64_C(0x3ff8000000000000), UINT64_C(0xbff8000000000000), /* 1.5, -1.5 */
    UINT64_C(0x4000000000000000), UINT64_C(0x4004000000000000), UINT64_C(0xc004000000000000),
    UINT64_C(0x4008000000000000), UINT64_C(0x3fb999999999999a), UINT64_C(0x3fc999999999999a),
    UINT64_C(0x3fd3333333333333), UINT64_C(0x41dfffffffc00000), /* 2^31 - 1 */
    UINT64_C(0x41efffffffc00000), UINT64_C(0x41efffffffdfffff), UINT64_C(0x41efffffffe00000), /* 2^32 - 2, .. */
    UINT64_C(0x41efffffffe00001), UINT64_C(0x41effffffff00000), UINT64_C(0x41efffffffffffff),
    UINT64_C(0x41f0000000000000), UINT64_C(0x41f0000000000001), UINT64_C(0x41f0000000100000), /* 2^32, .. */
    UINT64_C(0xc1efffffffe00000), UINT64_C(0xc1f0000000000000), UINT64_C(0x432fffffffffffff), /* 2^52 - 0.5 */
    UINT64_C(0x4330000000000000), UINT64_C(0x4330000000000001), UINT64_C(0xc32fffffffffffff),
    UINT64_C(0xc330000000000000), UINT64_C(0x433fffffffffffff), UINT64_C(0x4340000000000000), /* 2^53 - 1, 2^53 */
    UINT64_C(0x4340000000000001), UINT64_C(0xc340000000000000), UINT64_C(0x43f0000000000000), /* 2^64 */
};

/* Those that are paired with each other in every way. */
static const uint64_t paired[] = {
    UINT64_C(0x0000000000000000), UINT64_C(0x8000000000000000), UINT64_C(0x0000000000000001),
    UINT64_C(0x800fffffffffffff), UINT64_C(0x7fefffffffffffff), UINT64_C(0x7ff0000000000000),
    UINT64_C(0xfff0000000000000), UINT64_C(0x7ff0000000000001), UINT64_C(0xfff8000000000000),
    UINT64_C(0x3ff0000000000001), UINT64_C(0xbff0000000000000), UINT64_C(0x3ca0000000000000),
    UINT64_C(0x4340000000000000),
};

static const uint64_t whole[] = {
    0, 1, 2, 3, 9, 10, 4294967294, 4294967295, 4294967296, 4294967297, 4503599627370495,
    4503599627370496, 4503599627370497, 9007199254740991, 9007199254740992, 9007199254740993,
    9007199254740994, 9007199254740995, 18014398509481983, 18014398509481985, 18014398509481986,
    UINT64_C(9223372036854775807), UINT64_C(9223372036854775808), UINT64_C(9223372036854776832),
    UINT64_C(9223372036854776833), UINT64_C(18446744073709550591), UINT64_C(18446744073709550592),
    UINT64_C(18446744073709551615),
};

/* splitmix64 */
static uint64_t state = UINT64_C(0x6b756475);

static uint64_t next(void) {
    uint64_t z = (state += UINT64_C(0x9e3779b97f4a7c15));
    z = (z ^ (z >> 30)) * UINT64_C(0xbf58476d1ce4e5b9);
    z = (z ^ (z >> 27)) * UINT64_C(0x94d049bb133111eb);
    return z ^ (z >> 31);
}

/* A pattern whose exponent's field lies in `span` places from `low` on. */
static uint64_t about(unsigned low, unsigned span) {
    uint64_t sign_and_digits = next() & UINT64_C(0x800fffffffffffff);
    uint64_t field = low + next() % span;
    return sign_and_digits | field << 52;
}

static void one(uint64_t a) {
    double x = number(a);
    printf("neg %016llx %016llx\n", (unsigned long long)a, (unsigned long long)pattern(-x));
    printf("abs %016llx %016llx\n", (unsigned long long)a, (unsigned long long)pattern(fabs(x)));
    printf("sqrt %016llx %016llx\n", (unsigned long long)a, (unsigned long long)pattern(sqrt(x)));
    printf("floor %016llx %016llx\n", (unsigned long long)a, (unsigned long long)pattern(floor(x)));
    int yes = !isnan(x) && x != 0.0;
    printf("not %016llx %016llx\n", (unsigned long long)a, (unsigned long long)flag(!yes));
    printf("truth %016llx %d\n", (unsigned long long)a, yes);
    int has = x >= 0.0 && x < 4294967296.0 && x == floor(x);
    printf("index %016llx %llx\n", (unsigned long long)a, has ? (unsigned long long)x : 1ULL << 32);
    printf("canonical %016llx %016llx\n", (unsigned long long)a, (unsigned long long)(isnan(x) ? QUIET : a));
}

static void two(const char *name, uint64_t a, uint64_t b, uint64_t r) {
    printf("%s %016llx %016llx %016llx\n", name, (unsigned long long)a, (unsigned long long)b, (unsigned long long)r);
}

static void both(uint64_t a, uint64_t b) {
    double x = number(a), y = number(b);
    two("add", a, b, pattern(x + y));
    two("sub", a, b, pattern(x - y));
    two("mul", a, b, pattern(x * y));
    two("div", a, b, pattern(x / y));
    two("less", a, b, flag(x < y));
    two("same", a, b, flag(x == y));
    two("least", a, b, pattern(x < y ? x : y));
    two("most", a, b, pattern(y < x ? x : y));
}

static void from_whole(uint64_t n) {
    printf("whole %llx %016llx\n", (unsigned long long)n, (unsigned long long)pattern((double)n));
}

static void empty(const char *name, double x) {
    printf("empty %s %016llx\n", name, (unsigned long long)pattern(x));
}

int main(void) {
    for (size_t i = 0; i < COUNT(special); i++) one(special[i]);
    for (int i = 0; i < 12; i++) one(next());
    for (int i = 0; i < 12; i++) one(about(1018, 60)); /* some have a fraction, some have none */
    for (int i = 0; i < 8; i++) one(pattern((double)(next() >> (32 + i % 8)))); /* indices */

    for (size_t i = 0; i < COUNT(paired); i++)
        for (size_t j = 0; j < COUNT(paired); j++) both(paired[i], paired[j]);
    for (int i = 0; i < 10; i++) {
        uint64_t a = next(), b = next();
        both(a, b);
    }
    for (int i = 0; i < 30; i++) { /* sums that round, and cancel */
        uint64_t a = about(1000, 40), b = about(1000, 40);
        both(a, b);
    }
    for (int i = 0; i < 15; i++) { /* products that go below the normal numbers, and past the largest */
        uint64_t a = about(480, 60), b = about(500, 40);
        both(a, b);
        a = about(1520, 30), b = about(1510, 20);
        both(a, b);
    }
    for (int i = 0; i < 8; i++) { /* quotients below the normal numbers */
        uint64_t a = about(0, 40), b = about(1030, 40);
        both(a, b);
    }

    for (size_t i = 0; i < COUNT(whole); i++) from_whole(whole[i]);
    for (int i = 0; i < 40; i++) from_whole(next() >> (i % 40));

    empty("add", 0.0);
    empty("sub", 0.0);
    empty("mul", 1.0);
    empty("div", 1.0);
    empty("less", 0.0);
    empty("same", 1.0);
    empty("least", INFINITY);
    empty("most", -INFINITY);
    return 0;
}
