/* How much stack the calls take: no more than the header says. */
#define _GNU_SOURCE
#include <cicada.h>

#include "cases.h"
#include <pthread.h>
#include <stdlib.h>
#include <string.h>

enum { WHOLE = 1 << 20, SAID = 64 << 10, ROWS = 300 };

static cicada_connection two[2];
static unsigned char *stack;

static void *nothing(void *it) { return it; }

/* Opens, and makes each call, so that tables and their indexes are deep. */
static void *everything(void *it) {
    static uint64_t keys[ROWS], rows[ROWS][CICADA_COLUMNS];
    static cicada_operation batch[4];
    uint64_t row[CICADA_COLUMNS] = {1}, stamp;
    uint32_t what;
    size_t listed, there;
    cicada_counts counted;
    if (cicada_open(8000, 0, two, 2) != CICADA_OK) return NULL;
    for (uint64_t part = 0; part < 10; part++) {
        cicada_begin(&two[0], 0);
        for (uint64_t key = 0; key < ROWS; key++) cicada_put(&two[0], 0, key * 512 + part, row);
        cicada_remove(&two[0], 0, part);
        cicada_get(&two[0], 0, 512, row);
        cicada_list(&two[0], 0, 0, UINT64_MAX, ROWS, keys, rows, &listed, &there);
        for (uint32_t kind = 0; kind < 4; kind++) batch[kind] = (cicada_operation){.kind = kind, .key = 512};
        cicada_apply(&two[0], batch, 4, &there);
        cicada_commit(&two[0], &stamp, NULL);
        cicada_collect(&two[0], NULL);
        cicada_hear(&two[1], stamp);
        cicada_tick(&two[1], 0, NULL);
        cicada_collect(&two[1], NULL);
        cicada_snapshot(&two[1]);
        cicada_get(&two[1], 0, 512, row);
        cicada_list(&two[1], 0, 0, UINT64_MAX, ROWS, keys, rows, &listed, &there);
        cicada_finish(&two[1], &stamp);
    }
    cicada_begin(&two[0], 0);
    cicada_abort(&two[0]);
    cicada_opened(&two[0], &what);
    cicada_count(&two[0], &counted);
    cicada_close(&two[0]);
    cicada_close(&two[1]);
    return counted.commits == 10 ? it : NULL;
}

/* How much of a stack a thread has touched. */
static size_t touched(void *(*body)(void *)) {
    pthread_attr_t how;
    pthread_t thread;
    void *answer = NULL;
    memset(stack, 0xa5, WHOLE);
    pthread_attr_init(&how);
    pthread_attr_setstack(&how, stack, WHOLE);
    holds(pthread_create(&thread, &how, body, stack) == 0 && pthread_join(thread, &answer) == 0 && answer == stack, "a thread on a stack of its own");
    pthread_attr_destroy(&how);
    size_t free_bytes = 0;
    while (free_bytes < WHOLE && stack[free_bytes] == 0xa5) free_bytes++;
    return WHOLE - free_bytes;
}

int main(void) {
    stack = aligned_alloc(4096, WHOLE);
    size_t alone = touched(nothing), all = touched(everything);
    fprintf(stderr, "%zu bytes of stack\n", all - alone);
    holds(all - alone <= SAID, "%zu bytes of stack", all - alone);
    free(stack);
    return counts();
}
