/* What the C tests share. Each is compiled as C and as C++. */
#ifndef CHECK_H
#define CHECK_H

#include <stdbool.h>
#include <stdio.h>
#include <string.h>

#include "ohakelm.h"

static int failed = 0;

/* Says which check does not hold, and goes on. */
#define CHECK(held) check((held), #held, __FILE__, __LINE__)

static inline void check(bool held, const char *text, const char *file, int line)
{
    if (held)
        return;
    printf("%s:%d: does not hold: %s\n", file, line, text);
    failed = 1;
}

#endif
