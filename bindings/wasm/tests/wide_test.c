/* Compares runtime/wide.c with the numbers of 128 bits of the processor. */
#define __ashlti3 our_shift_left
#define __lshrti3 our_shift_right
#define __multi3 our_product
#include "../runtime/wide.c"
#include <stdio.h>

enum { CASES = 5000000 };
static size state = 1;

/* Returns a number: small, negative and small, a power of two, of 32 bits, or any. */
static size next(void) {
    state ^= state << 13;
    state ^= state >> 7;
    state ^= state << 17;
    switch (state >> 61) {
    case 0:
        return -(state & 3);
    case 1:
        return (size)1 << (state & 63);
    case 2:
        return state & 0xffffffff;
    default:
        return state;
    }
}

int main(void) {
    for (long n = 0; n < CASES; n++) {
        wide a = (wide)next() << 64 | next(), b = (wide)next() << 64 | next();
        int count = (int)(n & 127);
        if (our_product(a, b) != a * b || our_shift_left(a, count) != a << count ||
            our_shift_right(a, count) != a >> count) {
            printf("case %ld differs\n", n);
            return 1;
        }
    }
    printf("%d cases agree\n", CASES);
    return 0;
}
