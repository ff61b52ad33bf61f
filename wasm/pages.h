/* The pages of memory that the heap lies in: those of the WebAssembly module, or those of a test. */
#ifndef PAGES_H
#define PAGES_H

typedef unsigned long word; /* 64 bits, as an address */

enum { PAGE = 65536 };

#ifdef __wasm__
extern unsigned char __heap_base; /* the linker's: behind the stack and what is written in the module */

static inline word first_address(void) {
    return (word)&__heap_base;
}

static inline word pages_now(void) {
    return __builtin_wasm_memory_size(0);
}

/* The page at which so many more begin, or a number of ones alone where they are refused. */
static inline word pages_more(word pages) {
    return __builtin_wasm_memory_grow(0, pages);
}
#else
word first_address(void);
word pages_now(void);
word pages_more(word pages);
#endif

#endif
