// Loaded before the C library, refuses one request for memory of a program, that of the number which FAIL_AT names, counted from 1; and then
// makes the file that FAIL_MARK names.
#define _GNU_SOURCE
#include <dlfcn.h>
#include <fcntl.h>
#include <stdlib.h>
#include <unistd.h>

static long requests;

static int is_refused(void) {
    static long number;
    if (number == 0) {
        const char *named = getenv("FAIL_AT");
        number = named ? atol(named) : -1;
    }
    if (++requests != number) return 0;
    const char *mark = getenv("FAIL_MARK");
    if (mark) close(open(mark, O_WRONLY | O_CREAT, 0600));
    return 1;
}

void *malloc(size_t bytes) {
    static void *(*next)(size_t);
    if (!next) next = dlsym(RTLD_NEXT, "malloc");
    return is_refused() ? NULL : next(bytes);
}

void *realloc(void *old, size_t bytes) {
    static void *(*next)(void *, size_t);
    if (!next) next = dlsym(RTLD_NEXT, "realloc");
    return is_refused() ? NULL : next(old, bytes);
}
