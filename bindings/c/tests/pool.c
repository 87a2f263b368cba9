/* Pools of connections: each call where it does not fit, the order in which connections go round, what whoever takes one sees, and threads that are more than
 * the connections. */
#include <cicada.h>

#include "cases.h"
#include <pthread.h>
#include <sched.h>
#include <string.h>

enum { CONNECTIONS = 3, THREADS = 8, TURNS = 200 };

static cicada_connection all[CONNECTIONS], other;
static cicada_pool pool, copied;

static void open_all(void) {
    holds(cicada_open(1000, 0, all, CONNECTIONS) == CICADA_OK, "open");
    holds(cicada_share(all, CONNECTIONS, &pool) == CICADA_OK, "a pool is made");
}

/* ---- calls that do not fit */

static int is_untouched(const cicada_pool *it) {
    static const cicada_pool none;
    return memcmp(it, &none, sizeof none) == 0;
}

static void sharing(void) {
    static cicada_connection more[2];
    cicada_pool made;
    memset(&made, 0, sizeof made);
    holds(cicada_open(100, 0, more, 2) == CICADA_OK, "open");
    holds(cicada_share(NULL, 2, &made) == CICADA_RANGE && cicada_share(more, 2, NULL) == CICADA_RANGE, "null is no connection and no pool");
    holds(cicada_share(more, 0, &made) == CICADA_RANGE && cicada_share(more, 65, &made) == CICADA_RANGE, "a pool has 1 to 64 connections");
    cicada_begin(&more[1], 0);
    holds(cicada_share(more, 2, &made) == CICADA_MISUSED && is_untouched(&made), "a connection with a transaction is not shared");
    holds(cicada_begin(&more[0], 0) == CICADA_OK && cicada_abort(&more[0]) == CICADA_OK, "and those before it stay as they were");
    holds(cicada_abort(&more[1]) == CICADA_OK && cicada_share(more, 1, &made) == CICADA_OK, "one of two is shared");
    holds(cicada_share(more, 2, &pool) == CICADA_MISUSED, "but not twice");
    holds(cicada_close_pool(&made) == CICADA_OK && cicada_close(&more[0]) == CICADA_OK, "a pool that is closed has closed its connections");
    holds(cicada_share(more, 2, &made) == CICADA_MISUSED, "what is closed is not shared");
    holds(cicada_close(&more[1]) == CICADA_OK, "close");
}

static void misuse(void) {
    cicada_connection *it = &other, *rest[CONNECTIONS];
    cicada_pool never;
    memset(&never, 0, sizeof never);
    open_all();
    copied = pool;
    holds(cicada_take(NULL, &it) == CICADA_RANGE && cicada_take(&pool, NULL) == CICADA_RANGE, "take of null");
    holds(cicada_give_back(NULL, &all[0]) == CICADA_RANGE && cicada_give_back(&pool, NULL) == CICADA_RANGE && cicada_close_pool(NULL) == CICADA_RANGE, "null");
    holds(cicada_take(&copied, &it) == CICADA_MISUSED && cicada_take(&never, &it) == CICADA_MISUSED && it == &other, "take of a copy, and of no pool");
    holds(cicada_give_back(&copied, &all[0]) == CICADA_MISUSED && cicada_close_pool(&copied) == CICADA_MISUSED, "a copy is no pool");
    holds(cicada_give_back(&pool, &all[0]) == CICADA_MISUSED && cicada_give_back(&pool, &other) == CICADA_MISUSED, "what was not taken is not given back");
    holds(cicada_get(&all[0], 0, 0, (uint64_t[6]){0}) == CICADA_MISUSED && cicada_close(&all[0]) == CICADA_MISUSED, "what rests in a pool is not called");
    for (int i = 0; i < CONNECTIONS; i++) holds(cicada_take(&pool, &rest[i]) == CICADA_OK, "each connection is taken");
    holds(cicada_take(&pool, &it) == CICADA_BUSY && it == &other, "and no more");
    cicada_begin(rest[0], 0);
    holds(cicada_give_back(&pool, rest[0]) == CICADA_MISUSED && cicada_abort(rest[0]) == CICADA_OK, "with a transaction it stays with the caller");
    holds(cicada_close_pool(&pool) == CICADA_BUSY && cicada_give_back(&pool, rest[0]) == CICADA_OK, "a pool is not closed while some are taken");
    holds(cicada_close_pool(&pool) == CICADA_BUSY && cicada_take(&pool, &it) == CICADA_OK && it == rest[0], "and then none was closed");
    holds(cicada_give_back(&pool, it) == CICADA_OK && cicada_give_back(&pool, it) == CICADA_MISUSED, "given back once");
    holds(cicada_close(rest[1]) == CICADA_OK && cicada_give_back(&pool, rest[1]) == CICADA_MISUSED, "what is closed is not given back");
    holds(cicada_close_pool(&pool) == CICADA_BUSY && cicada_give_back(&pool, rest[2]) == CICADA_OK, "one is still taken");
    holds(cicada_close_pool(&pool) == CICADA_OK && cicada_close_pool(&pool) == CICADA_OK, "closed, and closed again");
    holds(cicada_take(&pool, &it) == CICADA_MISUSED && cicada_give_back(&pool, rest[0]) == CICADA_MISUSED, "a closed pool has nothing");
}

/* ---- the order, and what is seen */

static void go_round(void) {
    cicada_connection *it = NULL, *two = NULL;
    open_all();
    for (int i = 0; i < 3 * CONNECTIONS; i++)
        holds(cicada_take(&pool, &it) == CICADA_OK && it == &all[i % CONNECTIONS] && cicada_give_back(&pool, it) == CICADA_OK, "turn %d", i);
    holds(cicada_take(&pool, &it) == CICADA_OK && cicada_take(&pool, &two) == CICADA_OK && it == &all[0] && two == &all[1], "two are taken");
    holds(cicada_give_back(&pool, two) == CICADA_OK && cicada_give_back(&pool, it) == CICADA_OK, "and given back in another order");
    const int order[] = {2, 1, 0};
    for (int i = 0; i < CONNECTIONS; i++) holds(cicada_take(&pool, &it) == CICADA_OK && it == &all[order[i]], "the one that rested longest, %d", i);
    for (int i = 0; i < CONNECTIONS; i++) cicada_give_back(&pool, &all[i]);
    holds(cicada_close_pool(&pool) == CICADA_OK, "close");
}

/* One put behind the other, each at the next connection with a clock that only counts: the next one sees it. */
static void see_what_was_committed(void) {
    cicada_connection *it = NULL;
    uint64_t row[CICADA_COLUMNS] = {0}, stamp = 0, last = 0;
    int seen = 0;
    open_all();
    for (uint64_t turn = 1; turn <= 50; turn++) {
        cicada_take(&pool, &it);
        for (int i = 0; turn == 1 && i < 20; i++) cicada_tick(it, 1000000, NULL);
        cicada_begin(it, 0);
        int32_t status = cicada_get(it, 0, 1, row);
        seen += turn == 1 ? status == CICADA_ABSENT : status == CICADA_OK && row[0] == turn - 1;
        row[0] = turn;
        cicada_put(it, 0, 1, row);
        seen += cicada_commit(it, &stamp, NULL) == CICADA_OK && stamp > last;
        last = stamp;
        cicada_give_back(&pool, it);
    }
    holds(seen == 100, "each transaction sees the one before, and has a later stamp: %d of 100", seen);
    holds(cicada_close_pool(&pool) == CICADA_OK, "close");
}

/* ---- threads */

static uint64_t added[THREADS], busy[THREADS], wrong[THREADS];

/* Adds one to a counter that all share; what it reads never falls from turn to turn. */
static void *work(void *me) {
    size_t which = (size_t)((uint64_t *)me - added);
    uint64_t least = 0;
    for (int turn = 0; turn < TURNS; turn++) {
        cicada_connection *it = NULL;
        int32_t status;
        while ((status = cicada_take(&pool, &it)) == CICADA_BUSY) busy[which]++, sched_yield();
        if (status != CICADA_OK) wrong[which]++;
        for (int tries = 0;; tries++) {
            cicada_operation one = {.kind = CICADA_ADD, .table = 0, .key = 1, .row = {1}};
            uint64_t stamp = 0;
            size_t done;
            if (cicada_begin(it, 0) != CICADA_OK) wrong[which]++;
            status = cicada_apply(it, &one, 1, &done);
            if (status == CICADA_OK && one.row[0] <= least) wrong[which]++;
            if (status == CICADA_OK) {
                status = cicada_commit(it, &stamp, NULL);
            } else {
                cicada_abort(it), cicada_conflict(it, &stamp, NULL);
            }
            if (status == CICADA_OK) {
                least = one.row[0];
                added[which]++;
                break;
            }
            cicada_collect(it, NULL), cicada_hear(it, stamp);
            for (int i = 0; i < (tries < 3 ? tries : 3); i++) sched_yield();
        }
        if (turn % 16 == 0) cicada_rest(it, 0, NULL);
        if (cicada_give_back(&pool, it) != CICADA_OK) wrong[which]++;
    }
    return NULL;
}

static void threads(void) {
    pthread_t ids[THREADS];
    cicada_connection *it = NULL;
    uint64_t row[CICADA_COLUMNS] = {0}, stamp, sum = 0, faults = 0;
    open_all();
    cicada_take(&pool, &it);
    cicada_begin(it, 0), cicada_put(it, 0, 1, row);
    holds(cicada_commit(it, &stamp, NULL) == CICADA_OK && cicada_give_back(&pool, it) == CICADA_OK, "the counter stands");
    for (int i = 0; i < THREADS; i++) pthread_create(&ids[i], NULL, work, &added[i]);
    for (int i = 0; i < THREADS; i++) pthread_join(ids[i], NULL);
    for (int i = 0; i < THREADS; i++) sum += added[i], faults += wrong[i];
    cicada_take(&pool, &it);
    cicada_begin(it, 0);
    holds(cicada_get(it, 0, 1, row) == CICADA_OK && row[0] == sum && sum == THREADS * TURNS, "%d threads at %d connections lose nothing", THREADS, CONNECTIONS);
    holds(faults == 0, "no call answers what it may not, and no thread sees less than it saw");
    cicada_abort(it), cicada_give_back(&pool, it);
    holds(cicada_close_pool(&pool) == CICADA_OK, "close");
}

int main(void) {
    sharing();
    misuse();
    go_round();
    see_what_was_committed();
    threads();
    return counts();
}
