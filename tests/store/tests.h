/* What the tests share: a count of what is wrong, printed with the line. */
#ifndef TESTS_H
#define TESTS_H

#include "mst_store.h"
#include <stdio.h>
#include <string.h>

static int wrong = 0;
static int tried = 0;

#define EXPECT(holds) expect((holds), #holds, __LINE__)

/* Does not stop the test: the next lines may say more. */
static inline void expect(int holds, const char *text, int line) {
    tried++;
    if (!holds) {
        wrong++;
        printf("line %d: %s\n", line, text);
    }
}

static inline int ended(const char *name) {
    printf("%s: %d wrong of %d\n", name, wrong, tried);
    return wrong != 0;
}

/* The bytes of a text, without its end. */
#define TEXT(text) (const uint8_t *)(text), sizeof(text) - 1

#endif
