/*
 * Shifts, products and quotients of numbers of 128 bits. Code that a compiler makes for WebAssembly calls these functions. Their
 * names and meanings are those of the library compiler-rt. A shift is by less than 128 bits. These functions aren't proved.
 */
typedef unsigned long u64;
typedef unsigned __int128 u128;

static u128 of(u64 high, u64 low) {
    return (u128)high << 64 | low;
}

u128 __ashlti3(u128 a, int n) {
    u64 low = (u64)a, high = (u64)(a >> 64);
    if (n >= 64) return of(low << (n - 64), 0);
    return n ? of(high << n | low >> (64 - n), low << n) : a;
}

u128 __lshrti3(u128 a, int n) {
    u64 low = (u64)a, high = (u64)(a >> 64);
    if (n >= 64) return of(0, high >> (n - 64));
    return n ? of(high >> n, low >> n | high << (64 - n)) : a;
}

/* The product of two numbers of 64 bits, made from the products of their halves. */
static u128 product(u64 a, u64 b) {
    u64 low_a = a & 0xffffffff, high_a = a >> 32, low_b = b & 0xffffffff, high_b = b >> 32;
    u64 low = low_a * low_b, middle = high_a * low_b + (low >> 32), other = low_a * high_b + (middle & 0xffffffff);
    return of(high_a * high_b + (middle >> 32) + (other >> 32), other << 32 | (low & 0xffffffff));
}

u128 __multi3(u128 a, u128 b) {
    return product((u64)a, (u64)b) + of((u64)(a >> 64) * (u64)b + (u64)a * (u64)(b >> 64), 0);
}

/* The quotient. If a number has more than 64 bits, this is a long division, bit by bit. */
u128 __udivti3(u128 a, u128 b) {
    if (!(a >> 64) && !(b >> 64)) return (u64)a / (u64)b;
    u128 rest = 0, quotient = 0;
    for (int bit = 127; bit >= 0; bit--) {
        int is_carried = (int)(rest >> 127);
        rest = rest << 1 | (a >> bit & 1);
        quotient <<= 1;
        if (is_carried || rest >= b) {
            rest -= b;
            quotient |= 1;
        }
    }
    return quotient;
}
