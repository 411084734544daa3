/* Prints the tables of floats and their codes that crates/value_tests holds the library to.

   The codes are what the C compiler and this machine store, and what math.h says is not a number,
   so they owe nothing to the library. Run it so:

       cc -std=c11 -o /tmp/float-codes tools/float-codes.c -lm && /tmp/float-codes
*/
#include <float.h>
#include <inttypes.h>
#include <math.h>
#include <stdio.h>
#include <string.h>

static uint32_t bits32(float x)
{
    uint32_t bits;
    memcpy(&bits, &x, sizeof bits);
    return bits;
}

static uint64_t bits64(double x)
{
    uint64_t bits;
    memcpy(&bits, &x, sizeof bits);
    return bits;
}

static int is_nan32(uint32_t bits)
{
    float x;
    memcpy(&x, &bits, sizeof x);
    return isnan(x) != 0;
}

static int is_nan64(uint64_t bits)
{
    double x;
    memcpy(&x, &bits, sizeof x);
    return isnan(x) != 0;
}

#define COUNT(table) (sizeof (table) / sizeof *(table))

/* Zero, smallest and largest subnormal, smallest and largest normal, infinity; then some between. */
static const float singles[] = {
    0.0f, FLT_TRUE_MIN, 0x1.fffffcp-127f, FLT_MIN, FLT_MAX, INFINITY, 1.0f, 0.1f, 1.5f, 16777216.0f,
};

static const double doubles[] = {
    0.0, DBL_TRUE_MIN, 0x0.fffffffffffffp-1022, DBL_MIN, DBL_MAX, INFINITY, 1.0, 0.1, 1.5, 9007199254740992.0,
};

/* The pattern right above infinity, a signalling one amid, the highest signalling one, the lowest quiet
   one, a quiet one with a payload, the highest pattern. */
static const uint32_t not_singles[] = {
    0x7f800001, 0x7fa00000, 0x7fbfffff, 0x7fc00000, 0x7fd1ce55, 0x7fffffff,
};

static const uint64_t not_doubles[] = {
    0x7ff0000000000001, 0x7ff4000000000000, 0x7ff7ffffffffffff,
    0x7ff8000000000000, 0x7ff9dead00c0ffee, 0x7fffffffffffffff,
};

/* Real and imaginary parts. */
static const float complexes[][2] = {
    {1.0f, 0.1f}, {0.1f, 1.0f}, {0.0f, -0.0f}, {-0.0f, 0.0f},
    {INFINITY, -FLT_MAX}, {-INFINITY, FLT_TRUE_MIN}, {-1.0f, 0x1.fffffcp-127f},
};

int main(void)
{
    puts("binary32");
    for (size_t i = 0; i < COUNT(singles); i++)
        for (int sign = 1; sign >= -1; sign -= 2) {
            float x = sign < 0 ? -singles[i] : singles[i];
            printf("(%.9g, 0x%08" PRIx32 ")\n", x, bits32(x));
        }
    puts("binary64");
    for (size_t i = 0; i < COUNT(doubles); i++)
        for (int sign = 1; sign >= -1; sign -= 2) {
            double x = sign < 0 ? -doubles[i] : doubles[i];
            printf("(%.17g, 0x%016" PRIx64 ")\n", x, bits64(x));
        }
    puts("complex, the real part first");
    for (size_t i = 0; i < COUNT(complexes); i++) {
        const float *z = complexes[i];
        uint64_t code = (uint64_t)bits32(z[0]) << 32 | bits32(z[1]);
        printf("(%.9g, %.9g, 0x%016" PRIx64 ")\n", z[0], z[1], code);
    }
    puts("binary32, and whether it is not a number");
    for (size_t i = 0; i < COUNT(not_singles); i++)
        for (int sign = 0; sign <= 1; sign++) {
            uint32_t bits = not_singles[i] | (uint32_t)sign << 31;
            printf("(0x%08" PRIx32 ", %d)\n", bits, is_nan32(bits));
        }
    puts("binary64, and whether it is not a number");
    for (size_t i = 0; i < COUNT(not_doubles); i++)
        for (int sign = 0; sign <= 1; sign++) {
            uint64_t bits = not_doubles[i] | (uint64_t)sign << 63;
            printf("(0x%016" PRIx64 ", %d)\n", bits, is_nan64(bits));
        }
    return 0;
}
