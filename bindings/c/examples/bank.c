/* Threads move amounts between accounts, and snapshots add them up beside them: each sum has to be what was put in.
 *
 *   cc -O2 bank.c $(pkg-config --cflags --libs cicada) -pthread -o bank && ./bank [THREADS] [TRANSFERS]
 */
#define _POSIX_C_SOURCE 200809L
#include <cicada.h>

#include <pthread.h>
#include <sched.h>
#include <stdio.h>
#include <stdlib.h>
#include <time.h>

enum { ACCOUNTS = 64, TABLE = 0, BALANCE = 0, OPENING = 1000, MOST_TRIES = 100000 };

static cicada_connection connections[CICADA_MOST_CONNECTIONS];
static int threads = 4;
static int transfers = 20000;

struct tally {
    uint64_t commits, refusals, snapshots, wrong;
};
static struct tally tallies[CICADA_MOST_CONNECTIONS];

/* One clock for all threads, in nanoseconds. */
static uint64_t now(void) {
    struct timespec t;
    clock_gettime(CLOCK_MONOTONIC, &t);
    return (uint64_t)t.tv_sec * 1000000000u + (uint64_t)t.tv_nsec;
}

static void need(int32_t status, const char *what) {
    if (status == CICADA_OK) return;
    fprintf(stderr, "%s: %s\n", what, cicada_status_text(status));
    exit(1);
}

/* Moves as much as is there, at most `amount`; the first status that is not OK. */
static int32_t move(cicada_connection *it, uint64_t from, uint64_t to, uint64_t amount) {
    uint64_t giver[CICADA_COLUMNS], taker[CICADA_COLUMNS];
    int32_t status;
    if ((status = cicada_get(it, TABLE, from, giver)) != CICADA_OK) return status;
    if ((status = cicada_get(it, TABLE, to, taker)) != CICADA_OK) return status;
    if (amount > giver[BALANCE]) amount = giver[BALANCE];
    giver[BALANCE] -= amount;
    taker[BALANCE] += amount;
    if ((status = cicada_put(it, TABLE, from, giver)) != CICADA_OK) return status;
    return cicada_put(it, TABLE, to, taker);
}

/* The retry loop: begins again after a conflict and where places are out, later and later. */
static int32_t transact(cicada_connection *it, uint64_t from, uint64_t to, uint64_t amount, struct tally *tally) {
    for (int turn = 0; turn < MOST_TRIES; turn++) {
        uint64_t stamp = 0;
        int32_t status = cicada_begin(it, now());
        if (status != CICADA_OK) return status;
        status = move(it, from, to, amount);
        if (status == CICADA_OK) {
            status = cicada_commit(it, &stamp, NULL);
        } else {
            cicada_abort(it);
            if (status == CICADA_CONFLICT) cicada_conflict(it, &stamp, NULL);
        }
        if (status == CICADA_OK) {
            tally->commits++;
            return status;
        }
        if (status != CICADA_CONFLICT && status != CICADA_PLACES_OUT) return status;
        tally->refusals++;
        cicada_collect(it, NULL);
        if (status == CICADA_CONFLICT) cicada_hear(it, stamp);
        for (int i = 0; i < 1 << (turn < 6 ? turn : 6); i++) sched_yield();
    }
    return CICADA_CONFLICT;
}

/* The sum of all accounts, in one snapshot; where it is older than the accounts themselves, there is no row. */
static void add_up(cicada_connection *it, struct tally *tally) {
    uint64_t keys[ACCOUNTS], rows[ACCOUNTS][CICADA_COLUMNS], sum = 0, stamp;
    size_t listed = 0;
    need(cicada_snapshot(it), "snapshot");
    need(cicada_list(it, TABLE, 0, UINT64_MAX, ACCOUNTS, keys, rows, &listed, NULL), "list");
    need(cicada_finish(it, &stamp), "finish");
    for (size_t i = 0; i < listed; i++) sum += rows[i][BALANCE];
    if (listed == 0) return;
    tally->snapshots++;
    if (listed != ACCOUNTS || sum != ACCOUNTS * OPENING) tally->wrong++;
}

static void *work(void *me) {
    cicada_connection *it = me;
    struct tally *tally = &tallies[it - connections];
    uint64_t x = 88172645463325252u + (uint64_t)(it - connections) * 7919;
    for (int i = 0; i < transfers; i++) {
        x ^= x << 13, x ^= x >> 7, x ^= x << 17;
        uint64_t from = x % ACCOUNTS, to = (from + 1 + (x >> 20) % (ACCOUNTS - 1)) % ACCOUNTS;
        need(transact(it, from, to, (x >> 40) % 50, tally), "transfer");
        if (i % 64 == 63) cicada_collect(it, NULL);
        if (i % 512 == 511) add_up(it, tally);
    }
    need(cicada_close(it), "close");
    return NULL;
}

int main(int count, char **words) {
    if (count > 1) threads = atoi(words[1]);
    if (count > 2) transfers = atoi(words[2]);
    if (threads < 1 || threads > CICADA_MOST_CONNECTIONS) threads = 4;
    need(cicada_open(10000, 0, connections, (size_t)threads), "open");
    need(cicada_begin(&connections[0], now()), "begin");
    for (uint64_t key = 0; key < ACCOUNTS; key++) {
        uint64_t row[CICADA_COLUMNS] = {OPENING};
        need(cicada_put(&connections[0], TABLE, key, row), "put");
    }
    uint64_t stamp;
    need(cicada_commit(&connections[0], &stamp, NULL), "commit");
    /* (whoever has to see this commit hears of it first) */
    for (int i = 1; i < threads; i++) need(cicada_hear(&connections[i], stamp), "hear");
    pthread_t ids[CICADA_MOST_CONNECTIONS];
    uint64_t began = now();
    for (int i = 0; i < threads; i++) pthread_create(&ids[i], NULL, work, &connections[i]);
    for (int i = 0; i < threads; i++) pthread_join(ids[i], NULL);
    double seconds = (double)(now() - began) / 1e9;
    struct tally all = {0};
    for (int i = 0; i < threads; i++) {
        all.commits += tallies[i].commits, all.refusals += tallies[i].refusals;
        all.snapshots += tallies[i].snapshots, all.wrong += tallies[i].wrong;
    }
    fprintf(stderr, "%.0f transfers a second, %llu refusals\n", (double)all.commits / seconds, (unsigned long long)all.refusals);
    printf("%llu transfers, %llu wrong sums\n", (unsigned long long)all.commits, (unsigned long long)all.wrong);
    return all.wrong != 0 || all.snapshots == 0;
}
