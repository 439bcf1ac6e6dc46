/* tests.h - facts that are checked, and failures that are counted. */
#ifndef TESTS_H
#define TESTS_H

#include <stdio.h>
#include <stdlib.h>

static int failures;

#define CHECK(fact)                                                           \
    do {                                                                      \
        if (!(fact)) {                                                        \
            printf("%s:%d: this is not so: %s\n", __FILE__, __LINE__, #fact); \
            failures++;                                                       \
        }                                                                     \
    } while (0)

#endif
