// Arithmetic with numbers of 128 bits, which the compiler asks for where a processor hasn't it.
#include "types.h"

typedef unsigned __int128 wide;

static const size LOW_HALF = 0xffffffff;

static wide joined(size high, size low) {
    union {
        size parts[2];
        wide whole;
    } both = {{low, high}};
    return both.whole;
}

static size high_of(wide number) {
    union {
        wide whole;
        size parts[2];
    } both = {number};
    return both.parts[1];
}

// The product of two numbers of 64 bits, by halves.
static wide product(size a, size b) {
    size low = (a & LOW_HALF) * (b & LOW_HALF);
    size middle = (a >> 32) * (b & LOW_HALF) + (low >> 32);
    size other = (a & LOW_HALF) * (b >> 32) + (middle & LOW_HALF);
    size high = (a >> 32) * (b >> 32) + (middle >> 32) + (other >> 32);
    return joined(high, other << 32 | (low & LOW_HALF));
}

wide __multi3(wide a, wide b) {
    size low_a = (size)a, low_b = (size)b;
    wide lows = product(low_a, low_b);
    return joined(high_of(lows) + high_of(a) * low_b + low_a * high_of(b), (size)lows);
}

wide __ashlti3(wide number, int by) {
    size low = (size)number, high = high_of(number);
    if (by == 0) return number;
    if (by >= 64) return joined(low << (by - 64), 0);
    return joined(high << by | low >> (64 - by), low << by);
}

wide __lshrti3(wide number, int by) {
    size low = (size)number, high = high_of(number);
    if (by == 0) return number;
    if (by >= 64) return joined(0, high >> (by - 64));
    return joined(high >> by, low >> by | high << (64 - by));
}
