/* Record numbers go round: whoever puts rows has those that others have removed. RECORDS_OUT comes where the engine is full, and nowhere else. */
#include <cicada.h>

#include "cases.h"
#include <pthread.h>
#include <sched.h>
#include <stdatomic.h>
#include <stdlib.h>
#include <time.h>

static uint64_t now(void) {
    struct timespec t;
    clock_gettime(CLOCK_MONOTONIC, &t);
    return (uint64_t)t.tv_sec * 1000000000u + (uint64_t)t.tv_nsec;
}

/* The stamp of the last commit of this thread. */
static _Thread_local uint64_t committed;

/* One row is put, or taken out, in a transaction of its own, as often as others are in the way. Any other answer is handed back. */
static int32_t change(cicada_connection *it, int put, uint32_t table, uint64_t key, uint64_t reading) {
    uint64_t row[CICADA_COLUMNS] = {key}, stamp;
    for (int turn = 0;; turn++) {
        int32_t status = cicada_begin(it, reading ? now() : 0), done;
        if (status != CICADA_OK) return status;
        status = put ? cicada_put(it, table, key, row) : cicada_remove(it, table, key);
        if (status == CICADA_OK || status == CICADA_ABSENT) {
            done = cicada_commit(it, &stamp, NULL);
            if (done == CICADA_OK) {
                committed = stamp;
                return status;
            }
            status = done;
        } else {
            cicada_conflict(it, &stamp, NULL);
            cicada_abort(it);
        }
        if (status != CICADA_CONFLICT && status != CICADA_PLACES_OUT) return status;
        cicada_rest(it, reading ? now() : 0, NULL);
        if (status == CICADA_CONFLICT) cicada_hear(it, stamp);
        sched_yield();
    }
}

/* ---- one after the other */

/* One connection puts so many rows under keys of a ring, another removes them ten behind. The number of those that were put. */
static long queue(uint32_t records, size_t count, long rows, uint64_t ring, uint64_t reading) {
    cicada_connection it[CICADA_MOST_CONNECTIONS];
    if (cicada_open(records, 0, it, count) != CICADA_OK) return -1;
    long in = 0;
    for (; in < rows; in++) {
        if (change(&it[0], 1, 0, (uint64_t)in % ring, reading) != CICADA_OK) break;
        /* each sees what the other did, whatever the readings are */
        cicada_hear(&it[1], committed);
        if (in >= 10) {
            if (change(&it[1], 0, 0, (uint64_t)(in - 10) % ring, reading) != CICADA_OK) break;
            cicada_hear(&it[0], committed);
        }
        if (in % 16 == 15)
            for (size_t i = 0; i < count; i++) {
                cicada_hear(&it[i], committed);
                cicada_rest(&it[i], reading ? now() : 0, NULL);
            }
    }
    for (size_t i = 0; i < count; i++) cicada_close(&it[i]);
    return in;
}

/* One connection puts rows under keys that rise without end, or fall, and takes each out when so many stand behind it. The number of those that were put. */
static long rising(uint32_t records, long live, long rows, int indexed, int falling) {
    cicada_connection it;
    if (cicada_open(records, 0, &it, 1) != CICADA_OK) return -1;
    long in = 0;
    if (indexed && (cicada_begin(&it, 0) != CICADA_OK || cicada_declare_index(&it, 0, 1) != CICADA_OK || cicada_commit(&it, &committed, NULL) != CICADA_OK)) return -1;
    for (; in < rows; in++) {
        const long out = in - live;
        if (change(&it, 1, 0, (uint64_t)(falling ? rows - in : in), 0) != CICADA_OK) break;
        if (out >= 0 && change(&it, 0, 0, (uint64_t)(falling ? rows - out : out), 0) != CICADA_OK) break;
        if (in % 16 == 15) cicada_rest(&it, 0, NULL);
    }
    cicada_close(&it);
    return in;
}

/* ---- threads */

enum { MOST_THREADS = 8 };
typedef struct {
    cicada_connection *it;
    uint32_t table;
    uint64_t ring, lead;
    long rows;
    atomic_long *put, *removed;
    atomic_int *stopped;
    int32_t status;
} side;

static void *put_rows(void *at) {
    side *me = at;
    for (long i = 0; i < me->rows && !*me->stopped; i++) {
        while (i - *me->removed >= (long)me->lead && !*me->stopped) cicada_rest(me->it, now(), NULL), sched_yield();
        me->status = change(me->it, 1, me->table, (uint64_t)i % me->ring, 1);
        if (me->status != CICADA_OK) break;
        *me->put = i + 1;
        if (i % 32 == 31) cicada_collect(me->it, NULL);
    }
    if (me->status != CICADA_OK) *me->stopped = 1;
    cicada_close(me->it);
    return NULL;
}

static void *remove_rows(void *at) {
    side *me = at;
    for (long i = 0; i < me->rows && !*me->stopped; i++) {
        while (*me->put <= i && !*me->stopped) cicada_rest(me->it, now(), NULL), sched_yield();
        /* a transaction may not see a commit that has returned: it begins again */
        while ((me->status = change(me->it, 0, me->table, (uint64_t)i % me->ring, 1)) == CICADA_ABSENT && !*me->stopped) sched_yield();
        if (me->status != CICADA_OK) break;
        *me->removed = i + 1;
        if (i % 32 == 31) cicada_collect(me->it, NULL);
    }
    if (me->status != CICADA_OK) *me->stopped = 1;
    cicada_close(me->it);
    return NULL;
}

/* So many pairs, in each of which one thread puts rows and another removes them; `lead` rows are there at most. Whether all went through. */
static int pairs(uint32_t records, int count, long rows, uint64_t ring, uint64_t lead) {
    static cicada_connection it[2 * MOST_THREADS];
    side sides[2 * MOST_THREADS];
    atomic_long put[MOST_THREADS], removed[MOST_THREADS];
    atomic_int stopped = 0;
    pthread_t threads[2 * MOST_THREADS];
    int fine = 1;
    if (cicada_open(records, 0, it, (size_t)(2 * count)) != CICADA_OK) return 0;
    for (int i = 0; i < 2 * count; i++) {
        int pair = i / 2;
        put[pair] = removed[pair] = 0;
        sides[i] = (side){&it[i], (uint32_t)pair % CICADA_TABLES, ring, lead, rows, &put[pair], &removed[pair], &stopped, CICADA_OK};
    }
    for (int i = 0; i < 2 * count; i++) pthread_create(&threads[i], NULL, i % 2 ? remove_rows : put_rows, &sides[i]);
    for (int i = 0; i < 2 * count; i++) {
        pthread_join(threads[i], NULL);
        if (sides[i].status != CICADA_OK) {
            fine = 0;
            printf("connection %d: %s, with %ld put and %ld removed\n", i, cicada_status_text(sides[i].status), (long)*sides[i].put, (long)*sides[i].removed);
        }
    }
    return fine;
}

/* ---- one that fills the engine */

/* How many rows this connection puts, each in a transaction of its own, until it is answered RECORDS_OUT. */
static long fill(cicada_connection *it, long most) {
    long rows = 0;
    int32_t status = CICADA_OK;
    while (rows < most && (status = change(it, 1, 0, (uint64_t)rows, 1)) == CICADA_OK) {
        if (++rows % 32 == 0) cicada_collect(it, NULL);
    }
    return status == CICADA_OK || status == CICADA_RECORDS_OUT ? rows : -1;
}

static void fills(uint32_t records, size_t count) {
    cicada_connection it[CICADA_MOST_CONNECTIONS], one;
    long alone, rows, removed = 0;
    holds(cicada_open(records, 0, &one, 1) == CICADA_OK, "one connection");
    alone = fill(&one, records);
    cicada_close(&one);
    holds(alone >= (long)records * 2 / 5, "%ld rows in %u records", alone, records);
    holds(cicada_open(records, 0, it, count) == CICADA_OK, "%zu connections", count);
    rows = fill(&it[0], records);
    holds(rows == alone, "one of %zu fills the engine: %ld rows, and one alone %ld", count, rows, alone);
    for (size_t i = 0; i < count; i++) cicada_rest(&it[i], now(), NULL);
    while (removed < rows && change(&it[1], 0, 0, (uint64_t)removed, 1) == CICADA_OK) {
        if (++removed % 32 == 0)
            for (size_t i = 0; i < count; i++) cicada_rest(&it[i], now(), NULL);
    }
    holds(removed == rows, "another removes all: %ld of %ld", removed, rows);
    for (size_t i = 0; i < count; i++) cicada_rest(&it[i], now(), NULL);
    holds(fill(&it[count - 1], rows) == rows, "a third puts them again");
    /* what a connection has is there for the others once it is closed */
    for (size_t i = 1; i < count; i++) cicada_close(&it[i]);
    for (long key = 0; key < rows; key++) holds(change(&it[0], 0, 0, (uint64_t)key, 1) == CICADA_OK, "row %ld is removed", key);
    holds(fill(&it[0], rows) == rows, "the last one puts them again");
    cicada_close(&it[0]);
}

/* A bulk of rows in one transaction takes numbers as it goes. */
static void bulk(uint32_t records, size_t count) {
    cicada_connection it[CICADA_MOST_CONNECTIONS];
    uint64_t row[CICADA_COLUMNS] = {1}, stamp;
    holds(cicada_open(records, 0, it, count) == CICADA_OK, "%zu connections", count);
    cicada_begin(&it[0], now());
    for (uint64_t key = 0; key < records / 4; key++) holds(cicada_put(&it[0], 0, key, row) == CICADA_OK, "row %ld of a bulk", (long)key);
    holds(cicada_commit(&it[0], &stamp, NULL) == CICADA_OK, "a bulk commits");
    for (size_t i = 0; i < count; i++) cicada_close(&it[i]);
}

int main(int argc, char **argv) {
    long rows = argc > 1 ? atol(argv[1]) : 200000;
    long put;
    put = queue(1000, 2, rows, 300, 1);
    holds(put == rows, "two connections, a ring of 300 keys: %ld rows of %ld", put, rows);
    put = queue(120, 2, rows / 10, 20, 1);
    holds(put == rows / 10, "two connections, few records: %ld rows of %ld", put, rows / 10);
    put = queue(1000, 2, rows / 10, 300, 0);
    holds(put == rows / 10, "two connections without a clock: %ld rows of %ld", put, rows / 10);
    put = queue(120, 8, rows / 10, 20, 0);
    holds(put == rows / 10, "eight connections without a clock, few records: %ld rows of %ld", put, rows / 10);
    put = rising(1000, 10, rows / 2, 0, 0);
    holds(put == rows / 2, "keys that rise, ten rows at any time: %ld rows of %ld", put, rows / 2);
    put = rising(1000, 10, rows / 2, 1, 0);
    holds(put == rows / 2, "keys and an index that rise: %ld rows of %ld", put, rows / 2);
    put = rising(1000, 10, rows / 2, 0, 1);
    holds(put == rows / 2, "keys that fall: %ld rows of %ld", put, rows / 2);
    put = rising(1000, 30, rows / 2, 0, 0);
    holds(put == rows / 2, "keys that rise, thirty rows at any time: %ld rows of %ld", put, rows / 2);
    holds(pairs(1000, 1, rows, 200, 20), "two threads");
    holds(pairs(20000, 4, rows / 10, 2000, 500), "eight threads");
    holds(pairs(600, 4, rows / 10, 30, 10), "eight threads with few records");
    fills(2000, 8);
    fills(1000, 64);
    bulk(4000, 8);
    return counts();
}
