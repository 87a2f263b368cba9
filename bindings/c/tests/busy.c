/* Threads that call at one connection at once, also while it is closed: each call is answered, and the rows are as if the calls that were taken had been
 * made one after another. */
#include <cicada.h>

#include "cases.h"
#include <pthread.h>
#include <stdatomic.h>
#include <sched.h>

enum { THREADS = 4, ROUNDS = 3000, KEYS = 400 };

static cicada_connection it;
static atomic_ulong answers[16], commits;
static atomic_int closing;

static void note(int32_t status) { answers[status >= 0 && status < 15 ? status : 15]++; }

/* Calls whatever comes, and counts the commits that were answered. */
static void *careless(void *me) {
    uint64_t x = 88172645463325252u + (uint64_t)(size_t)me * 7919, row[CICADA_COLUMNS] = {1}, stamp, key;
    static _Thread_local uint64_t keys[KEYS], rows[KEYS][CICADA_COLUMNS];
    size_t listed;
    for (int i = 0; i < ROUNDS; i++) {
        x ^= x << 13, x ^= x >> 7, x ^= x << 17;
        key = (x >> 8) % KEYS;
        int32_t status;
        switch (x % 8) {
        case 0: status = cicada_begin(&it, 0); break;
        case 1:
            status = cicada_commit(&it, &stamp, NULL);
            if (status == CICADA_OK) commits++;
            break;
        case 2: status = cicada_put(&it, 0, key, row); break;
        case 3: status = cicada_remove(&it, 0, key); break;
        case 4: status = cicada_get(&it, 0, key, row); break;
        case 5: status = cicada_list(&it, 0, 0, UINT64_MAX, KEYS, keys, rows, &listed, NULL); break;
        case 6: status = cicada_collect(&it, NULL); break;
        default: status = x >> 8 & 1 ? cicada_abort(&it) : cicada_list(&it, 0, 0, UINT64_MAX, 0, NULL, NULL, &listed, &(size_t){0}); break;
        }
        note(status);
        if (status == CICADA_BUSY) sched_yield();
        if (closing && i == ROUNDS / 2) do
                note(status = cicada_close(&it));
            while (status == CICADA_BUSY);
    }
    return NULL;
}

static void fill(void) {
    uint64_t row[CICADA_COLUMNS] = {1}, stamp;
    cicada_begin(&it, 0);
    for (uint64_t key = 0; key < KEYS; key++) cicada_put(&it, 0, key, row);
    holds(cicada_commit(&it, &stamp, NULL) == CICADA_OK, "fill");
}

static void run(int close) {
    pthread_t threads[THREADS];
    cicada_counts counted = {0};
    closing = close;
    commits = 0;
    for (int i = 0; i < 16; i++) answers[i] = 0;
    holds(cicada_open(4000, 0, &it, 1) == CICADA_OK, "open");
    fill();
    for (size_t i = 0; i < THREADS; i++) pthread_create(&threads[i], NULL, careless, (void *)i);
    for (size_t i = 0; i < THREADS; i++) pthread_join(threads[i], NULL);
    fprintf(stderr, "%lu done, %lu absent, %lu misused, %lu busy\n", answers[CICADA_OK], answers[CICADA_ABSENT], answers[CICADA_MISUSED], answers[CICADA_BUSY]);
    for (int i = 0; i < 16; i++)
        holds(answers[i] == 0 || i == CICADA_OK || i == CICADA_ABSENT || i == CICADA_MISUSED || i == CICADA_BUSY || i == CICADA_PLACES_OUT ||
                  i == CICADA_RECORDS_OUT,
              "nobody else is there: status %d, %lu times", i, answers[i]);
    if (close) {
        holds(cicada_begin(&it, 0) == CICADA_MISUSED && cicada_close(&it) == CICADA_OK, "it is closed");
        return;
    }
    holds(answers[CICADA_BUSY] > 0, "no two threads met");
    holds(cicada_count(&it, &counted) == CICADA_OK && counted.commits == commits + 1, "%llu commits in place of %lu", (unsigned long long)counted.commits,
          commits + 1);
    cicada_abort(&it);
    fill();
    holds(cicada_close(&it) == CICADA_OK, "close");
}

int main(void) {
    for (int i = 0; i < 3; i++) run(0), run(1);
    return counts();
}
