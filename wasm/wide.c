/* Products and shifts of numbers of 128 bits, which clang calls for by these names where WebAssembly has no
 * instruction. Its own library of them is no part of the toolchain. */
typedef unsigned long word;
typedef __int128 wide;

union halves {
    wide whole;
    struct {
        word low, high;
    } of;
};

/* The low 128 bits of a product, by halves of 32 bits. */
wide __multi3(wide left, wide right) {
    union halves a = {.whole = left}, b = {.whole = right}, product;
    const word mask = 0xffffffff;
    word a0 = a.of.low & mask, a1 = a.of.low >> 32, b0 = b.of.low & mask, b1 = b.of.low >> 32;
    word low = a0 * b0, cross = a0 * b1, other = a1 * b0;
    /* At most three numbers below 2^32: the upper bits are the carry. */
    word middle = (low >> 32) + (cross & mask) + (other & mask);
    word carry = middle >> 32;
    product.of.low = (low & mask) | middle << 32;
    product.of.high = a1 * b1 + (cross >> 32) + (other >> 32) + carry + a.of.low * b.of.high + a.of.high * b.of.low;
    return product.whole;
}

wide __ashlti3(wide number, int places) {
    union halves from = {.whole = number}, to;
    if (places & 64) {
        to.of.low = 0;
        to.of.high = from.of.low << (places & 63);
    } else if (places == 0) {
        to = from;
    } else {
        to.of.low = from.of.low << places;
        to.of.high = from.of.high << places | from.of.low >> (64 - places);
    }
    return to.whole;
}

wide __lshrti3(wide number, int places) {
    union halves from = {.whole = number}, to;
    if (places & 64) {
        to.of.high = 0;
        to.of.low = from.of.high >> (places & 63);
    } else if (places == 0) {
        to = from;
    } else {
        to.of.high = from.of.high >> places;
        to.of.low = from.of.low >> places | from.of.high << (64 - places);
    }
    return to.whole;
}
