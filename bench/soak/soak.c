/* The library at work for minutes or days: ledgers, producers, consumers, a reader and a thread that rests, beside one another.
 *
 *   soak SECONDS [SLICES] [KEYS]
 *
 * Ledgers move amounts between 1,024 accounts. Each producer puts rows into a table of its own, and a consumer takes them out at most ten behind, under
 * KEYS keys that come round again (1,000; 0: keys that rise without end). The reader adds up all accounts and looks through the queues, in snapshots. One
 * thread rests, and moves an amount each second. For each of the SLICES (10) one line is printed: transactions a second of each role, the latency of a
 * transaction with all its tries (median, 99 and 99.9 of 100, in microseconds), refusals for each commit, the fewest records that a connection has left, the
 * versions that are queued, and the memory of the process in MB.
 *
 * What it checks: each sum is what was put in; at each moment a queue has consecutive numbers; a consumer finds each row that it has heard of, as it was put,
 * and once; no call answers what it may not; no transaction goes without an end for ten seconds; memory does not grow behind the first slice. The last line is
 * 'N passed, M failed'.
 */
#define _POSIX_C_SOURCE 200809L
#include <cicada.h>

#include <pthread.h>
#include <sched.h>
#include <stdatomic.h>
#include <stdio.h>
#include <stdlib.h>
#include <string.h>
#include <time.h>
#include <unistd.h>

enum { ACCOUNTS = 1024, OPENING = 1000, QUEUES = 2, BEHIND = 10, LEDGERS = 2, THREADS = LEDGERS + 2 * QUEUES + 2, BUCKETS = 64 * 8 };
enum { ACCOUNT_TABLE = 0, QUEUE_TABLE = 1, ROWS = 20000 };
enum role { LEDGER, PRODUCER, CONSUMER, READER, RESTING, ROLES };
static const char *const names[ROLES] = {"ledger", "producer", "consumer", "reader", "resting"};
static const uint64_t MOST_WAIT = 10000000000u;

/* What a thread tells of itself while it works. */
struct teller {
    _Atomic uint64_t commits, refusals, records, queued;
    _Atomic uint32_t took[BUCKETS];
};

/* A queue: how many rows were put and taken, the stamps of the last put and the last take, and whether its producer has ended. */
struct queue {
    _Atomic uint64_t put, taken, put_stamp, taken_stamp;
    _Atomic int ended;
};

static cicada_connection connections[THREADS];
static struct teller tellers[THREADS];
static enum role roles[THREADS];
static struct queue queues[QUEUES];
static uint64_t ring = 1000;
static _Atomic int ends;
static _Atomic uint64_t wrong, working = THREADS;

/* One clock for all threads, in nanoseconds since the process began. */
static uint64_t began;
static uint64_t now(void) {
    struct timespec t;
    clock_gettime(CLOCK_MONOTONIC, &t);
    return (uint64_t)t.tv_sec * 1000000000u + (uint64_t)t.tv_nsec - began;
}

static void fail(const char *what, const char *why) {
    if (atomic_fetch_add(&wrong, 1) < 20) fprintf(stderr, "%s: %s\n", what, why);
    atomic_store(&ends, 1);
}

static void need(int32_t status, const char *what) {
    if (status != CICADA_OK) fail(what, cicada_status_text(status));
}

/* The bucket of a time: eight for each power of two. */
static size_t bucket(uint64_t nanoseconds) {
    if (nanoseconds < 8) return (size_t)nanoseconds;
    int power = 63 - __builtin_clzll(nanoseconds);
    return (size_t)(power * 8) + (size_t)(nanoseconds >> (power - 3) & 7);
}

static double microseconds(size_t bucket) {
    if (bucket < 8) return (double)bucket / 1000;
    return (double)(8 + bucket % 8) * (double)((uint64_t)1 << (bucket / 8)) / 8000;
}

/* ---- transactions, with all their tries */

/* What a transaction does: the first status that is not OK. */
typedef int32_t (*body)(cicada_connection *it, void *of);

static int32_t attempt(cicada_connection *it, body does, void *of, uint64_t *stamp) {
    int32_t status = cicada_begin(it, now());
    if (status != CICADA_OK) return status;
    status = does(it, of);
    if (status == CICADA_OK) return cicada_commit(it, stamp, NULL);
    cicada_abort(it);
    if (status == CICADA_CONFLICT) cicada_conflict(it, stamp, NULL);
    return status;
}

/* Tells the time of a transaction that has committed, and collects now and then. */
static void committed(cicada_connection *it, uint64_t start) {
    struct teller *tells = &tellers[it - connections];
    cicada_counts counts;
    atomic_fetch_add(&tells->took[bucket(now() - start)], 1);
    if ((atomic_fetch_add(&tells->commits, 1) & 63) != 63) return;
    cicada_collect(it, NULL);
    need(cicada_count(it, &counts), "count");
    atomic_store(&tells->records, counts.records);
    atomic_store(&tells->queued, counts.queued);
}

/* Tries until the transaction has committed, and gives its stamp; 0 where that failed. */
static uint64_t transact(cicada_connection *it, const char *what, body does, void *of) {
    uint64_t start = now(), stamp = 0;
    for (int turn = 0;; turn++) {
        int32_t status = attempt(it, does, of, &stamp);
        if (status == CICADA_OK) {
            committed(it, start);
            return stamp;
        }
        if (status != CICADA_CONFLICT && status != CICADA_PLACES_OUT) {
            fail(what, cicada_status_text(status));
            return 0;
        }
        atomic_fetch_add(&tellers[it - connections].refusals, 1);
        cicada_collect(it, NULL);
        if (status == CICADA_CONFLICT) cicada_hear(it, stamp);
        if (now() - start > MOST_WAIT) {
            fail(what, status == CICADA_CONFLICT ? "refused for ten seconds" : "without a place for ten seconds");
            return 0;
        }
        for (int i = 0; i < 1 << (turn < 6 ? turn : 6); i++) sched_yield();
    }
}

/* ---- ledgers */

struct transfer {
    uint64_t from, to, amount;
};

static int32_t move(cicada_connection *it, void *of) {
    const struct transfer *transfer = of;
    uint64_t giver[CICADA_COLUMNS], taker[CICADA_COLUMNS], amount = transfer->amount;
    int32_t status;
    if ((status = cicada_get(it, ACCOUNT_TABLE, transfer->from, giver)) != CICADA_OK) return status;
    if ((status = cicada_get(it, ACCOUNT_TABLE, transfer->to, taker)) != CICADA_OK) return status;
    if (amount > giver[0]) amount = giver[0];
    giver[0] -= amount, taker[0] += amount;
    if ((status = cicada_put(it, ACCOUNT_TABLE, transfer->from, giver)) != CICADA_OK) return status;
    return cicada_put(it, ACCOUNT_TABLE, transfer->to, taker);
}

static uint64_t next(uint64_t *x) {
    *x ^= *x << 13, *x ^= *x >> 7, *x ^= *x << 17;
    return *x;
}

static void transfer_once(cicada_connection *it, uint64_t *x) {
    uint64_t drawn = next(x);
    struct transfer transfer = {drawn % ACCOUNTS, 0, (drawn >> 40) % 50};
    transfer.to = (transfer.from + 1 + (drawn >> 20) % (ACCOUNTS - 1)) % ACCOUNTS;
    transact(it, "transfer", move, &transfer);
}

static void keep_ledger(cicada_connection *it, uint64_t *x) {
    while (!atomic_load(&ends)) transfer_once(it, x);
}

static void rest(cicada_connection *it, uint64_t *x) {
    for (int turn = 0; !atomic_load(&ends); turn++) {
        nanosleep(&(struct timespec){0, 100000000}, NULL);
        need(cicada_rest(it, now(), NULL), "rest");
        if (turn % 10 == 9) transfer_once(it, x);
    }
}

/* ---- queues */

struct entry {
    uint32_t table;
    uint64_t key, number;
};

static struct entry entry_of(size_t queue, uint64_t number) {
    return (struct entry){QUEUE_TABLE + (uint32_t)queue, ring == 0 ? number : number % ring, number};
}

static int32_t put_entry(cicada_connection *it, void *of) {
    const struct entry *entry = of;
    uint64_t row[CICADA_COLUMNS] = {entry->number};
    return cicada_put(it, entry->table, entry->key, row);
}

static int32_t take_entry(cicada_connection *it, void *of) {
    const struct entry *entry = of;
    uint64_t row[CICADA_COLUMNS];
    int32_t status = cicada_get(it, entry->table, entry->key, row);
    if (status != CICADA_OK) return status;
    if (row[0] != entry->number) return CICADA_ABSENT;
    return cicada_remove(it, entry->table, entry->key);
}

/* What a thread does that waits for another one: a connection that makes no call would hold all others back. */
static void idle(cicada_connection *it) {
    need(cicada_rest(it, now(), NULL), "rest");
    sched_yield();
}

static void produce(cicada_connection *it, size_t queue) {
    struct queue *own = &queues[queue];
    for (uint64_t number = 0;; number++) {
        while (number - atomic_load(&own->taken) >= BEHIND && !atomic_load(&ends)) idle(it);
        if (atomic_load(&ends)) return;
        need(cicada_hear(it, atomic_load(&own->taken_stamp)), "hear");
        struct entry entry = entry_of(queue, number);
        uint64_t stamp = transact(it, "put", put_entry, &entry);
        if (stamp == 0) return;
        atomic_store(&own->put_stamp, stamp);
        atomic_store(&own->put, number + 1);
    }
}

static void consume(cicada_connection *it, size_t queue) {
    struct queue *own = &queues[queue];
    for (uint64_t number = 0;; number++) {
        while (number >= atomic_load(&own->put)) {
            if (atomic_load(&own->ended) && number >= atomic_load(&own->put)) return;
            idle(it);
        }
        need(cicada_hear(it, atomic_load(&own->put_stamp)), "hear");
        struct entry entry = entry_of(queue, number);
        uint64_t stamp = transact(it, "take", take_entry, &entry);
        if (stamp == 0) return;
        atomic_store(&own->taken_stamp, stamp);
        atomic_store(&own->taken, number + 1);
    }
}

/* ---- the reader */

static uint64_t keys[ACCOUNTS + 1], rows[ACCOUNTS + 1][CICADA_COLUMNS];

static void add_up(cicada_connection *it) {
    size_t listed = 0;
    uint64_t sum = 0;
    need(cicada_list(it, ACCOUNT_TABLE, 0, UINT64_MAX, ACCOUNTS + 1, keys, rows, &listed, NULL), "list");
    for (size_t i = 0; i < listed; i++) sum += rows[i][0];
    if (listed != ACCOUNTS || sum != (uint64_t)ACCOUNTS * OPENING) fail("snapshot", "a wrong sum");
}

/* The numbers of a queue at one moment are consecutive, and at most so many as it may be behind. */
static void look_through(cicada_connection *it, size_t queue) {
    size_t listed = 0;
    uint64_t least = UINT64_MAX, most = 0;
    need(cicada_list(it, QUEUE_TABLE + (uint32_t)queue, 0, UINT64_MAX, ACCOUNTS + 1, keys, rows, &listed, NULL), "list");
    for (size_t i = 0; i < listed; i++) {
        if (rows[i][0] < least) least = rows[i][0];
        if (rows[i][0] > most) most = rows[i][0];
        if (keys[i] != entry_of(queue, rows[i][0]).key) fail("snapshot", "a row at another key");
    }
    if (listed != 0 && most - least + 1 != listed) fail("snapshot", "a queue with a gap");
    if (listed > BEHIND) fail("snapshot", "a queue that is too long");
}

static void read_all(cicada_connection *it) {
    while (!atomic_load(&ends)) {
        uint64_t start = now(), stamp;
        need(cicada_snapshot(it), "snapshot");
        add_up(it);
        for (size_t queue = 0; queue < QUEUES; queue++) look_through(it, queue);
        need(cicada_finish(it, &stamp), "finish");
        committed(it, start);
        need(cicada_rest(it, now(), NULL), "rest");
    }
}

/* ---- all of it */

static void *work(void *me) {
    size_t i = (size_t)((cicada_connection *)me - connections);
    uint64_t x = 88172645463325252u + i * 7919;
    switch (roles[i]) {
    case LEDGER: keep_ledger(me, &x); break;
    case PRODUCER:
        produce(me, (i - LEDGERS) / 2);
        atomic_store(&queues[(i - LEDGERS) / 2].ended, 1);
        break;
    case CONSUMER: consume(me, (i - LEDGERS) / 2); break;
    case READER: read_all(me); break;
    default: rest(me, &x);
    }
    /* (what is queued at a connection that is closed is not taken back, while others may still want its places) */
    atomic_fetch_sub(&working, 1);
    while (atomic_load(&working) != 0) idle(me);
    need(cicada_close(me), "close");
    return NULL;
}

static int32_t put_accounts(cicada_connection *it, void *of) {
    (void)of;
    for (uint64_t key = 0; key < ACCOUNTS; key++) {
        uint64_t row[CICADA_COLUMNS] = {OPENING};
        int32_t status = cicada_put(it, ACCOUNT_TABLE, key, row);
        if (status != CICADA_OK) return status;
    }
    return CICADA_OK;
}

/* Opens, puts the accounts, and lets each connection hear of them and tick, so that each snapshot sees them. */
static void begin_all(void) {
    need(cicada_open(ROWS, 0, connections, THREADS), "open");
    if (atomic_load(&wrong) != 0) exit(1);
    uint64_t stamp = transact(&connections[0], "load", put_accounts, NULL);
    for (int turn = 0; turn < 3; turn++) {
        for (size_t i = 0; i < THREADS; i++) {
            need(cicada_hear(&connections[i], stamp), "hear");
            need(cicada_rest(&connections[i], now(), NULL), "rest");
        }
    }
    for (size_t i = 0; i < THREADS; i++) {
        size_t at = i - LEDGERS;
        roles[i] = i < LEDGERS ? LEDGER : at < 2 * QUEUES ? (at % 2 == 0 ? PRODUCER : CONSUMER) : at == 2 * QUEUES ? READER : RESTING;
    }
}

static double megabytes(void) {
    unsigned long long pages = 0, resident = 0;
    FILE *file = fopen("/proc/self/statm", "r");
    if (file == NULL) return 0;
    if (fscanf(file, "%llu %llu", &pages, &resident) != 2) resident = 0;
    fclose(file);
    return (double)resident * (double)sysconf(_SC_PAGESIZE) / 1e6;
}

/* The time below which so many of a thousand lie. */
static double quantile(const uint64_t *took, uint64_t all, uint64_t of_thousand) {
    uint64_t below = 0;
    for (size_t i = 0; i < BUCKETS; i++) {
        below += took[i];
        if (below * 1000 >= all * of_thousand && below != 0) return microseconds(i);
    }
    return 0;
}

/* One line of a slice: what each role has done in so many seconds. */
static void tell(double seconds) {
    uint64_t refusals = 0, commits = 0, records = UINT64_MAX, queued = 0;
    printf("%7.1f s", (double)now() / 1e9);
    for (int role = 0; role < ROLES; role++) {
        uint64_t took[BUCKETS] = {0}, all = 0;
        for (size_t i = 0; i < THREADS; i++) {
            for (size_t k = 0; k < BUCKETS && roles[i] == (enum role)role; k++) took[k] += atomic_exchange(&tellers[i].took[k], 0);
        }
        for (size_t k = 0; k < BUCKETS; k++) all += took[k];
        printf("  %s %.0f/s %.1f %.0f %.0f", names[role], (double)all / seconds, quantile(took, all, 500), quantile(took, all, 990), quantile(took, all, 999));
        commits += all;
    }
    for (size_t i = 0; i < THREADS; i++) {
        refusals += atomic_exchange(&tellers[i].refusals, 0);
        queued += atomic_load(&tellers[i].queued);
        if (roles[i] == PRODUCER && atomic_load(&tellers[i].records) < records) records = atomic_load(&tellers[i].records);
    }
    printf("  refused %.2f  records %llu  queued %llu  %.0f MB\n", (double)refusals / (double)(commits == 0 ? 1 : commits), (unsigned long long)records,
           (unsigned long long)queued, megabytes());
    fflush(stdout);
}

int main(int count, char **words) {
    double seconds = count > 1 ? atof(words[1]) : 10, slices = count > 2 ? atof(words[2]) : 10, memory = 0;
    if (count > 3) ring = strtoull(words[3], NULL, 10);
    if (seconds <= 0 || slices < 1 || (ring != 0 && ring <= BEHIND)) {
        fprintf(stderr, "usage: soak SECONDS [SLICES] [KEYS]\n");
        return 2;
    }
    began = now();
    begin_all();
    pthread_t ids[THREADS];
    for (size_t i = 0; i < THREADS; i++) pthread_create(&ids[i], NULL, work, &connections[i]);
    uint64_t start = now(), before = start;
    for (int slice = 1; slice <= (int)slices && !atomic_load(&ends); slice++) {
        uint64_t until = start + (uint64_t)(seconds / slices * slice * 1e9);
        while (now() < until && !atomic_load(&ends)) nanosleep(&(struct timespec){0, 20000000}, NULL);
        tell((double)(now() - before) / 1e9);
        before = now();
        if (slice == 1) memory = megabytes();
    }
    double after = megabytes();
    atomic_store(&ends, 1);
    for (size_t i = 0; i < THREADS; i++) pthread_join(ids[i], NULL);
    if (after > memory * 1.05 + 4) fail("memory", "it has grown behind the first slice");
    uint64_t failed = atomic_load(&wrong), puts = 0;
    for (size_t queue = 0; queue < QUEUES; queue++) {
        puts += atomic_load(&queues[queue].taken);
        if (atomic_load(&queues[queue].put) != atomic_load(&queues[queue].taken)) failed++;
    }
    printf("%llu rows through the queues\n%d passed, %llu failed\n", (unsigned long long)puts, failed == 0 ? 1 : 0, (unsigned long long)failed);
    return failed != 0;
}
