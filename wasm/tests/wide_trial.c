/* The products and shifts of wide.c, by words, for a host that knows the answers. */
typedef unsigned long word;
typedef __int128 wide;

wide __multi3(wide left, wide right);
wide __ashlti3(wide number, int places);
wide __lshrti3(wide number, int places);

static wide of(const word *words) {
    return (wide)((unsigned __int128)words[1] << 64 | words[0]);
}

static void put(word *words, wide number) {
    words[0] = (word)number;
    words[1] = (word)((unsigned __int128)number >> 64);
}

void product(word *to, const word *left, const word *right) {
    put(to, __multi3(of(left), of(right)));
}

void shifted_left(word *to, const word *number, int places) {
    put(to, __ashlti3(of(number), places));
}

void shifted_right(word *to, const word *number, int places) {
    put(to, __lshrti3(of(number), places));
}
