/* Cases: each one passes or is named; the last line has the counts, and the exit status says whether one failed. */
#ifndef CASES_H
#define CASES_H
#include <stdarg.h>
#include <stdio.h>

static int passed, failed;

static inline void holds(int it, const char *name, ...) {
    va_list values;
    if (it) {
        passed++;
        return;
    }
    failed++;
    fputs("case ", stdout);
    va_start(values, name);
    vprintf(name, values);
    va_end(values);
    putchar('\n');
}

static inline int counts(void) {
    printf("%d passed, %d failed\n", passed, failed);
    return failed != 0;
}
#endif
