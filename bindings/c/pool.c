/* Pools of connections, for threads that come and go. No call waits: where another thread takes the same connection at the same moment, a call looks again,
 * and that thread has it. No proof covers this file. */
#include "border.h"

#include <string.h>

_Static_assert(sizeof(cicada_pool) == 576, "a pool is 576 bytes");

/* The same as `claim`, of a connection at which nothing is open. */
static int32_t claim_idle(cicada_connection *it) {
    int32_t status = claim(it);
    if (status != CICADA_OK) return status;
    if (it->at != NULL && cicada_proved_opened(handle_of(it)) == CICADA_NOTHING) return CICADA_OK;
    release(it);
    return CICADA_MISUSED;
}

/* How many connections it has: none once it is closed. */
static size_t size_of(const cicada_pool *pool) { return (size_t)__atomic_load_n(&pool->count, __ATOMIC_SEQ_CST); }

/* ---- tickets: who has rested longest has the least one, and what is taken has none */

/* A connection that was taken out of a pool, where it still counts as one that rests: its number, and its ticket. */
typedef struct {
    size_t which;
    uint64_t ticket;
} place;

/* Takes the ticket of the connection that has rested longest; false where all are taken. */
static bool take_ticket(cicada_pool *pool, size_t count, place *place) {
    for (;;) {
        place->which = count;
        place->ticket = UINT64_MAX;
        for (size_t i = 0; i < count; i++) {
            uint64_t ticket = __atomic_load_n(&pool->rested[i], __ATOMIC_SEQ_CST);
            if (ticket != 0 && ticket < place->ticket) place->which = i, place->ticket = ticket;
        }
        if (place->which == count) return false;
        uint64_t seen = place->ticket;
        if (__atomic_compare_exchange_n(&pool->rested[place->which], &seen, 0, false, __ATOMIC_SEQ_CST, __ATOMIC_SEQ_CST)) return true;
    }
}

static void put_ticket(cicada_pool *pool, size_t which, uint64_t ticket) {
    __atomic_store_n(&pool->connections[which].word, RESTING, __ATOMIC_SEQ_CST);
    __atomic_store_n(&pool->rested[which], ticket, __ATOMIC_SEQ_CST);
}

/* Raises the stamp that whoever takes a connection hears. */
static void raise_committed(cicada_pool *pool, uint64_t stamp) {
    uint64_t known = __atomic_load_n(&pool->committed, __ATOMIC_SEQ_CST);
    while (known < stamp && !__atomic_compare_exchange_n(&pool->committed, &known, stamp, false, __ATOMIC_SEQ_CST, __ATOMIC_SEQ_CST)) {
    }
}

/* ---- making */

/* Claims connections side by side, all of them or none. */
static int32_t claim_all(cicada_connection *connections, size_t count) {
    for (size_t i = 0; i < count; i++) {
        int32_t status = claim_idle(&connections[i]);
        if (status == CICADA_OK) continue;
        while (i > 0) release(&connections[--i]);
        return status;
    }
    return CICADA_OK;
}

int32_t cicada_share(cicada_connection *connections, size_t count, cicada_pool *pool) {
    if (connections == NULL || pool == NULL || count == 0 || count > CICADA_MOST_CONNECTIONS) return CICADA_RANGE;
    int32_t status = claim_all(connections, count);
    if (status != CICADA_OK) return status;
    memset(pool, 0, sizeof *pool);
    pool->home = pool;
    pool->connections = connections;
    pool->count = count;
    pool->tickets = count;
    for (size_t i = 0; i < count; i++) {
        raise_committed(pool, connections[i].committed);
        put_ticket(pool, i, i + 1);
    }
    return CICADA_OK;
}

/* ---- taking and giving back */

int32_t cicada_take(cicada_pool *pool, cicada_connection **connection) {
    conflict noted = {0};
    place taken;
    if (pool == NULL || connection == NULL) return CICADA_RANGE;
    if (pool->home != pool) return CICADA_MISUSED;
    size_t count = size_of(pool);
    if (count == 0) return CICADA_MISUSED;
    if (!take_ticket(pool, count, &taken)) return CICADA_BUSY;
    cicada_connection *it = &pool->connections[taken.which];
    uint64_t stamp = __atomic_load_n(&pool->committed, __ATOMIC_SEQ_CST);
    if (stamp != 0) cicada_proved_hear(handle_of(it), stamp, &noted);
    release(it);
    *connection = it;
    return CICADA_OK;
}

int32_t cicada_give_back(cicada_pool *pool, cicada_connection *it) {
    size_t which = 0;
    if (pool == NULL || it == NULL) return CICADA_RANGE;
    if (pool->home != pool) return CICADA_MISUSED;
    size_t count = size_of(pool);
    while (which < count && it != &pool->connections[which]) which++;
    if (which == count) return CICADA_MISUSED;
    int32_t status = claim_idle(it);
    if (status != CICADA_OK) return status;
    raise_committed(pool, it->committed);
    put_ticket(pool, which, __atomic_add_fetch(&pool->tickets, 1, __ATOMIC_SEQ_CST));
    return CICADA_OK;
}

/* ---- closing */

static size_t count_closed(const cicada_pool *pool, size_t count) {
    size_t closed = 0;
    for (size_t i = 0; i < count; i++) closed += __atomic_load_n(&pool->connections[i].at, __ATOMIC_SEQ_CST) == NULL;
    return closed;
}

int32_t cicada_close_pool(cicada_pool *pool) {
    place taken[CICADA_MOST_CONNECTIONS];
    if (pool == NULL) return CICADA_RANGE;
    if (pool->home != pool) return CICADA_MISUSED;
    size_t count = size_of(pool), took = 0;
    while (took < count && take_ticket(pool, count, &taken[took])) took++;
    bool all = took + count_closed(pool, count) == count;
    if (all) __atomic_store_n(&pool->count, 0, __ATOMIC_SEQ_CST);
    for (size_t i = 0; i < took; i++) {
        if (all) {
            close_claimed(&pool->connections[taken[i].which]);
            release(&pool->connections[taken[i].which]);
        } else {
            put_ticket(pool, taken[i].which, taken[i].ticket);
        }
    }
    return all ? CICADA_OK : CICADA_BUSY;
}
