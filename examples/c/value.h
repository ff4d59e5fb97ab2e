/* A value as the program `sheet` prints it. */
#include <inttypes.h>
#include <stdio.h>
#include <string.h>

/* The nearest hundredth of the exact value, halves away from zero; `*` where that reaches 10^12. */
static void print_value(double value)
{
    uint64_t bits;
    memcpy(&bits, &value, sizeof bits);
    const double size = value < 0.0 ? -value : value;
    if (size >= 1e12) {
        putchar('*');
        return;
    }
    /* below 10^12 the exponent is so small that hundredths are a shift to the right */
    const int exponent = (int)(bits >> 52 & 0x7ff);
    const uint64_t mantissa = (bits & 0xfffffffffffff) | (exponent > 0 ? UINT64_C(1) << 52 : 0);
    const int shift = 1075 - (exponent > 0 ? exponent : 1);
    const uint64_t hundredths = shift < 64 ? ((mantissa * 200 >> shift) + 1) >> 1 : 0;
    if (hundredths >= UINT64_C(100000000000000)) {
        putchar('*');
        return;
    }
    printf("%s%" PRIu64 ".%02" PRIu64, value < 0.0 && hundredths > 0 ? "-" : "", hundredths / 100, hundredths % 100);
}
