/* heap_main SEED REQUESTS: the trial of the heap on this machine, whose pages are those of a piece of its own memory:
 * once where the heap alone takes some, and once where others take some in between. */
#include <stdio.h>
#include <stdlib.h>
#include <sys/mman.h>
#include "../pages.h"

word heap_trial(word seed, word requests, word most, int is_one_piece);
word heap_refused(void);

enum { MOST = 960 };

static word base, count, has_gaps;

word first_address(void) {
    return base + 40;
}

word pages_now(void) {
    return base / PAGE + count;
}

word pages_more(word pages) {
    if (has_gaps && count % 5 == 4 && count < MOST)
        count++;
    if (pages > MOST - count)
        return ~(word)0;
    word at = pages_now();
    count += pages;
    return at;
}

int main(int argc, char **words) {
    word seed = argc > 1 ? strtoul(words[1], 0, 10) : 1, requests = argc > 2 ? strtoul(words[2], 0, 10) : 1000000;
    has_gaps = argc > 3;
    /* Low, so that a limit is a number of bytes from 0, as it is in WebAssembly. */
    int flags = MAP_PRIVATE | MAP_ANONYMOUS | MAP_FIXED_NOREPLACE;
    void *at = mmap((void *)0x20000000, MOST * PAGE, PROT_READ | PROT_WRITE, flags, -1, 0);
    if (at == MAP_FAILED)
        return perror("mmap"), 2;
    base = (word)at;
    count = 1;
    word failed = heap_trial(seed, requests, base + MOST * PAGE, !has_gaps);
    if (failed)
        return printf("the heap fails at request %lu, by seed %lu\n", failed, seed), 1;
    return printf("%lu requests, %lu refused\n", requests, heap_refused()), 0;
}
