#include "refusing.h"

#include <stddef.h>

/* Which request is refused, counted down; none at a negative count. */
static long refused = -1;

void *__real_malloc(size_t size);
void *__real_realloc(void *at, size_t size);
void *__real_calloc(size_t count, size_t size);
void *__wrap_malloc(size_t size);
void *__wrap_realloc(void *at, size_t size);
void *__wrap_calloc(size_t count, size_t size);

static bool is_refused(void) {
    return refused >= 0 && refused-- == 0;
}

void *__wrap_malloc(size_t size) {
    return is_refused() ? NULL : __real_malloc(size);
}

void *__wrap_realloc(void *at, size_t size) {
    return is_refused() ? NULL : __real_realloc(at, size);
}

void *__wrap_calloc(size_t count, size_t size) {
    return is_refused() ? NULL : __real_calloc(count, size);
}

void refuse_request(long place) {
    refused = place;
}

bool was_refused(void) {
    bool was = refused < 0;
    refused = -1;
    return was;
}
