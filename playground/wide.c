// What LLVM calls by these names for numbers of 128 bits, where a processor has no instruction for it.
typedef unsigned long long word;
typedef unsigned __int128 wide;

static wide of(word high, word low) {
    union { struct { word low, high; } words; wide whole; } it = {{low, high}};
    return it.whole;
}

wide __multi3(wide a, wide b) {
    word low_a = (word)a, low_b = (word)b;
    word a0 = low_a & 0xffffffff, a1 = low_a >> 32, b0 = low_b & 0xffffffff, b1 = low_b >> 32;
    word low = a0 * b0, mid = a1 * b0 + (low >> 32), other = a0 * b1 + (mid & 0xffffffff);
    word high = a1 * b1 + (mid >> 32) + (other >> 32);
    high += low_a * (word)(b >> 64) + (word)(a >> 64) * low_b;
    return of(high, other << 32 | (low & 0xffffffff));
}

wide __ashlti3(wide a, int by) {
    word high = (word)(a >> 64), low = (word)a;
    if (by >= 64) return of(low << (by - 64), 0);
    return by == 0 ? a : of(high << by | low >> (64 - by), low << by);
}

wide __lshrti3(wide a, int by) {
    word high = (word)(a >> 64), low = (word)a;
    if (by >= 64) return of(0, high >> (by - 64));
    return by == 0 ? a : of(high >> by, high << (64 - by) | low >> by);
}

wide __ashrti3(wide a, int by) {
    long long high = (long long)(word)(a >> 64);
    word low = (word)a;
    if (by >= 64) return of((word)(high >> 63), (word)(high >> (by - 64)));
    return by == 0 ? a : of((word)(high >> by), (word)high << (64 - by) | low >> by);
}
