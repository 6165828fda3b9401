/* Counting of checks, as checks.h declares it. */
#include "checks.h"

#include <stdarg.h>
#include <stdio.h>

enum { MOST_SHOWN = 20 };

static unsigned long passed, failed;

void check(bool holds, const char *format, ...)
{
    if (holds) {
        passed++;
        return;
    }
    failed++;
    if (failed <= MOST_SHOWN) {
        va_list words;
        va_start(words, format);
        fputs("failed: ", stdout);
        vprintf(format, words);
        putchar('\n');
        va_end(words);
    }
}

bool checks_end(void)
{
    printf("%lu passed, %lu failed\n", passed, failed);
    return failed == 0 && passed > 0;
}
