// Refuses the request for memory, by malloc or realloc, whose number, counted from 1, is in REFUSE, and all after it
// where REFUSE_ON is 1. For each it writes a byte to the file whose descriptor is in REFUSED. For LD_PRELOAD.
#define _GNU_SOURCE
#include <dlfcn.h>
#include <stdlib.h>
#include <unistd.h>

static long requests, first = -1, goes_on;

static long number_in(const char *name) {
    const char *text = getenv(name);
    return text ? atol(text) : 0;
}

static int is_refused(void) {
    if (first < 0) first = number_in("REFUSE"), goes_on = number_in("REFUSE_ON");
    if (++requests < first || (requests > first && !goes_on)) return 0;
    return write(number_in("REFUSED"), "!", 1), 1;
}

void *malloc(size_t size) {
    static void *(*real)(size_t);
    if (!real) real = (void *(*)(size_t))dlsym(RTLD_NEXT, "malloc");
    return is_refused() ? NULL : real(size);
}

void *realloc(void *block, size_t size) {
    static void *(*real)(void *, size_t);
    if (!real) real = (void *(*)(void *, size_t))dlsym(RTLD_NEXT, "realloc");
    return is_refused() ? NULL : real(block, size);
}
