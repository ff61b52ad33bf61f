/* Asks the heap, and looks at what it asks of the C library, whose calls `ld --wrap` leads here. The status is 1 where
 * something is not as it has to be. */
#include <stdio.h>
#include <string.h>

struct given {
    unsigned long ok;
    void *at;
};

struct given rattle_alloc(unsigned long bytes, unsigned long alignment);
struct given rattle_realloc(void *at, unsigned long kept, unsigned long bytes, unsigned long alignment);
void rattle_dealloc(void *at);

void *__real_malloc(unsigned long bytes);
void *__real_realloc(void *at, unsigned long bytes);
void __real_free(void *at);

static unsigned long asked;
static void *freed;
static int refuses, status;

void *__wrap_malloc(unsigned long bytes) {
    asked = bytes;
    return refuses ? 0 : __real_malloc(bytes);
}

void *__wrap_realloc(void *at, unsigned long bytes) {
    asked = bytes;
    return refuses ? 0 : __real_realloc(at, bytes);
}

void __wrap_free(void *at) {
    freed = at;
    __real_free(at);
}

static void judge(int is_well, const char *what) {
    if (!is_well) {
        fprintf(stderr, "%s\n", what);
        status = 1;
    }
}

/* What was given of a request for so many bytes: as many are asked for, or as many as the alignment. */
static void judge_given(struct given given, unsigned long wanted) {
    judge(asked == wanted, "another number of bytes is asked for");
    judge(given.ok == !refuses, "whether there was memory is told wrongly");
    judge(given.at != 0, "an address is null");
}

int main(void) {
    struct given given = rattle_alloc(10, 1);
    judge_given(given, 10);
    memcpy(given.at, "012345678", 10);
    given = rattle_realloc(given.at, 10, 100, 1);
    judge_given(given, 100);
    judge(memcmp(given.at, "012345678", 10) == 0, "what is moved is not kept");
    refuses = 1;
    judge_given(rattle_realloc(given.at, 100, 1000, 1), 1000);
    judge_given(rattle_alloc(7, 4), 7);
    refuses = 0;
    rattle_dealloc(given.at);
    judge(freed == given.at, "another address is given back");
    given = rattle_alloc(0, 16);
    judge_given(given, 16);
    given = rattle_realloc(given.at, 0, 0, 8);
    judge_given(given, 8);
    rattle_dealloc(given.at);
    return status;
}
