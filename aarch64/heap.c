/* The heap of the library on 64-bit ARM: what the proved code asks for by `rattle_alloc` and its like, as the toolchain
 * names them, which has them for x86-64 alone. It is the C library's. A request for no bytes asks for as many as its
 * alignment, which is at most 16, as `malloc` gives it. */
typedef unsigned long word;

void *malloc(word bytes);
void *realloc(void *at, word bytes);
void free(void *at);

/* What the proved code gets of a request: whether there was memory, and where, which is never null. */
struct given {
    word ok;
    void *at;
};

static char nothing;

static struct given given(void *at) {
    return (struct given){at != 0, at ? at : &nothing};
}

struct given rattle_alloc(word bytes, word alignment) {
    return given(malloc(bytes ? bytes : alignment));
}

struct given rattle_realloc(void *at, word kept, word bytes, word alignment) {
    (void)kept;
    return given(realloc(at, bytes ? bytes : alignment));
}

void rattle_dealloc(void *at) {
    free(at);
}
