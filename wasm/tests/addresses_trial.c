/* Each kind of access to memory, at an address and beside it, for the trial of addresses. */
typedef unsigned long word;
typedef unsigned char byte;
typedef unsigned short half;
typedef unsigned int single;
typedef int vector __attribute__((vector_size(16)));

/* An address that the compiler does not know, with an offset in the instruction. */
enum { OFFSET = 16 };
#define AT(type, at) (((volatile type *)(at))[OFFSET / sizeof(type)])

/* Stores the low bits of a number by each width in turn. */
void stored(word at, int width, word number) {
    switch (width) {
    case 0: AT(byte, at) = (byte)number; break;
    case 1: AT(half, at) = (half)number; break;
    case 2: AT(single, at) = (single)number; break;
    case 3: AT(word, at) = number; break;
    case 4: AT(float, at) = (float)number; break;
    case 5: AT(double, at) = (double)number; break;
    case 6: AT(vector, at) = (vector){(int)number, 2, 3, 4}; break;
    default: __builtin_trap();
    }
}

/* The number that is there, by each width, without a sign and with one. */
word loaded(word at, int width) {
    switch (width) {
    case 0: return AT(byte, at);
    case 1: return AT(half, at);
    case 2: return AT(single, at);
    case 3: return AT(word, at);
    case 4: return (word)AT(float, at);
    case 5: return (word)AT(double, at);
    case 6: return (single)(AT(vector, at)[0] + AT(vector, at)[3]);
    case 7: return (word)(long)AT(signed char, at);
    case 8: return (word)(long)AT(short, at);
    case 9: return (word)(long)AT(int, at);
    default: __builtin_trap();
    }
}

void copied(word to, word from, word length) {
    __builtin_memmove((void *)to, (const void *)from, length);
}

void filled(word at, int with, word length) {
    __builtin_memset((void *)at, with, length);
}

word pages(void) {
    return __builtin_wasm_memory_size(0);
}

word pages_more(word more) {
    return __builtin_wasm_memory_grow(0, more);
}

/* Frames of 64 KiB, one in the other, of which each looks at the one above it. */
static word deeper(word frames, const volatile byte *above) {
    volatile byte frame[65536];
    frame[0] = (byte)frames;
    return frames ? deeper(frames - 1, frame) + *above : *above;
}

word deep(word frames) {
    byte first = 0;
    return deeper(frames, &first);
}
