/* What the tests say where something is otherwise than it has to be. */
#ifndef CHECK_H
#define CHECK_H

#include <stdio.h>
#include <stdlib.h>
#include <string.h>

#define CHECK(holds)                                                        \
    do {                                                                    \
        if (!(holds)) {                                                     \
            fprintf(stderr, "%s:%d: not so: %s\n", __FILE__, __LINE__, #holds); \
            exit(1);                                                        \
        }                                                                   \
    } while (0)

/* Whether a text of the library begins with these words. */
#define BEGINS(text, len, words) ((len) >= strlen(words) && !memcmp(text, words, strlen(words)))

#endif
