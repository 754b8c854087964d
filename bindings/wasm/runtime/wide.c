/*
 * Numbers of 128 bits, which WebAssembly lacks: the functions that the compiler calls for them.
 *
 * No proof covers this file: bindings/wasm/tests/wide_test.c compares it with the processor's.
 */
typedef unsigned long size;
typedef unsigned __int128 wide;
typedef union {
    wide all;
    struct {
        size low, high;
    };
} halves;

wide __ashlti3(wide a, int count) {
    halves in = {a}, out;
    if (count & 64) {
        out.low = 0;
        out.high = in.low << (count & 63);
    } else {
        out.low = in.low << count;
        out.high = count == 0 ? in.high : in.high << count | in.low >> (64 - count);
    }
    return out.all;
}

wide __lshrti3(wide a, int count) {
    halves in = {a}, out;
    if (count & 64) {
        out.high = 0;
        out.low = in.high >> (count & 63);
    } else {
        out.high = in.high >> count;
        out.low = count == 0 ? in.low : in.low >> count | in.high << (64 - count);
    }
    return out.all;
}

wide __multi3(wide a, wide b) {
    const size half = 0xffffffff;
    halves x = {a}, y = {b}, out;
    size low = (x.low & half) * (y.low & half);
    size cross = (x.low >> 32) * (y.low & half) + (low >> 32);
    size other = (x.low & half) * (y.low >> 32) + (cross & half);
    out.low = (low & half) | other << 32;
    out.high = (x.low >> 32) * (y.low >> 32) + (cross >> 32) + (other >> 32);
    out.high += x.high * y.low + x.low * y.high;
    return out.all;
}
