/* Each call in each state of a connection, each number at and past its limit, each pointer null, copies, and what comes behind a close. */
#include <cicada.h>

#include "cases.h"
#include <string.h>

enum { NOTHING, TRANSACTION, SPOILED, SNAPSHOT, CLOSED, NEVER_OPENED, COPIED, IN_POOL, NO_CONNECTION, STATES };
static const char *const state_names[STATES] = {"nothing", "transaction", "spoiled", "snapshot", "closed", "never opened", "copied", "in a pool", "null"};

static cicada_connection home, place;
static cicada_pool pool;
static uint64_t row[CICADA_COLUMNS] = {1, 2, 3, 4, 5, 6}, got[CICADA_COLUMNS], keys[4], rows[4][CICADA_COLUMNS], stamp;
static uint32_t record, number;
static size_t listed, there, done;
static cicada_counts counted;
static cicada_operation batch[2];

static cicada_operation operation(uint32_t kind, uint32_t table, uint64_t key) {
    cicada_operation it = {.kind = kind, .table = table, .key = key, .row = {1}};
    return it;
}

/* ---- each call in each state */

static int32_t begin(cicada_connection *it) { return cicada_begin(it, 0); }
static int32_t commit(cicada_connection *it) { return cicada_commit(it, &stamp, &record); }
static int32_t abort_(cicada_connection *it) { return cicada_abort(it); }
static int32_t conflict(cicada_connection *it) { return cicada_conflict(it, &stamp, &record); }
static int32_t snapshot(cicada_connection *it) { return cicada_snapshot(it); }
static int32_t finish(cicada_connection *it) { return cicada_finish(it, &stamp); }
static int32_t get(cicada_connection *it) { return cicada_get(it, 0, 1, got); }
static int32_t list(cicada_connection *it) { return cicada_list(it, 0, 0, UINT64_MAX, 4, keys, rows, &listed, &there); }
static int32_t find(cicada_connection *it) { return cicada_find(it, 5, 2, 0, UINT64_MAX, 4, keys, rows, &listed, &there); }
static int32_t declare_index(cicada_connection *it) { return cicada_declare_index(it, 5, 2); }
static int32_t put(cicada_connection *it) { return cicada_put(it, 0, 1, row); }
static int32_t remove_(cicada_connection *it) { return cicada_remove(it, 0, 1); }
static int32_t apply_one(cicada_connection *it, cicada_operation one, size_t count) {
    batch[0] = one;
    return cicada_apply(it, batch, count, &done);
}
static int32_t apply_get(cicada_connection *it) { return apply_one(it, operation(CICADA_GET, 0, 1), 1); }
static int32_t apply_put(cicada_connection *it) { return apply_one(it, operation(CICADA_PUT, 0, 1), 1); }
static int32_t apply_none(cicada_connection *it) { return apply_one(it, operation(CICADA_PUT, 9, 1), 0); }
static int32_t collect(cicada_connection *it) { return cicada_collect(it, &number); }
static int32_t hear(cicada_connection *it) { return cicada_hear(it, 512); }
static int32_t tick(cicada_connection *it) { return cicada_tick(it, 0, &stamp); }
static int32_t rest(cicada_connection *it) { return cicada_rest(it, 0, &stamp); }
static int32_t count(cicada_connection *it) { return cicada_count(it, &counted); }
static int32_t opened(cicada_connection *it) { return cicada_opened(it, &number); }
static int32_t close_(cicada_connection *it) { return cicada_close(it); }

/* What is due in the states that are open: O it is done, A absent, M misused; small where what is open stays, and else what is open then: n nothing, t a
 * transaction, s a snapshot. In the others: MISUSED but for what `closed` says, and RANGE at null. */
static const struct {
    const char *name;
    int32_t (*call)(cicada_connection *);
    const char *status, *then;
    int32_t closed;
} calls[] = {
    {"begin", begin, "OMMM", "ttps", CICADA_MISUSED},
    {"commit", commit, "MOMM", "nnps", CICADA_MISUSED},
    {"abort", abort_, "MOOM", "nnns", CICADA_MISUSED},
    {"conflict", conflict, "AAAA", "ntps", CICADA_MISUSED},
    {"snapshot", snapshot, "OMMM", "stps", CICADA_MISUSED},
    {"finish", finish, "MMMO", "ntpn", CICADA_MISUSED},
    {"get", get, "MAMA", "ntps", CICADA_MISUSED},
    {"list", list, "MOMO", "ntps", CICADA_MISUSED},
    {"find", find, "MAMA", "ntps", CICADA_MISUSED},
    {"declare_index", declare_index, "MOMM", "ntps", CICADA_MISUSED},
    {"put", put, "MOMM", "ntps", CICADA_MISUSED},
    {"remove", remove_, "MAMM", "ntps", CICADA_MISUSED},
    {"apply a get", apply_get, "MOMO", "ntps", CICADA_MISUSED},
    {"apply a put", apply_put, "MOMM", "ntps", CICADA_MISUSED},
    {"apply nothing", apply_none, "MOMO", "ntps", CICADA_MISUSED},
    {"collect", collect, "OMMM", "ntps", CICADA_MISUSED},
    {"hear", hear, "OMMM", "ntps", CICADA_MISUSED},
    {"tick", tick, "OMMM", "ntps", CICADA_MISUSED},
    {"rest", rest, "OMMM", "ntps", CICADA_MISUSED},
    {"count", count, "OOOO", "ntps", CICADA_MISUSED},
    {"opened", opened, "OOOO", "ntps", CICADA_OK},
    {"close", close_, "OOOO", "cccc", CICADA_OK},
};

/* A connection in this state. Where it is spoiled, a put has found no record. */
static cicada_connection *in_state(int state) {
    if (state == NO_CONNECTION) return NULL;
    if (state == NEVER_OPENED) return memset(&place, 0, sizeof place);
    if (cicada_open(state == SPOILED ? 1 : 100, 100, &home, 1) != CICADA_OK) return NULL;
    if (state == TRANSACTION || state == SPOILED) cicada_begin(&home, 0);
    if (state == SPOILED)
        for (uint64_t key = 10; cicada_put(&home, 0, key, row) == CICADA_OK;) key++;
    if (state == SNAPSHOT) cicada_snapshot(&home);
    if (state == CLOSED) cicada_close(&home);
    if (state == IN_POOL) cicada_share(&home, 1, &pool);
    if (state != COPIED) return &home;
    place = home;
    return &place;
}

static uint32_t open_at(cicada_connection *it) {
    uint32_t what = 99;
    return cicada_opened(it, &what) == CICADA_OK ? what : 99;
}

static void each_call_in_each_state(void) {
    static const uint32_t what[] = {['n'] = CICADA_NOTHING, ['t'] = CICADA_TRANSACTION, ['p'] = CICADA_SPOILED, ['s'] = CICADA_SNAPSHOT, ['c'] = CICADA_CLOSED};
    for (size_t i = 0; i < sizeof calls / sizeof *calls; i++)
        for (int state = 0; state < STATES; state++) {
            cicada_connection *it = in_state(state);
            int32_t due = CICADA_MISUSED, status;
            if (state <= SNAPSHOT) due = calls[i].status[state] == 'O' ? CICADA_OK : calls[i].status[state] == 'A' ? CICADA_ABSENT : CICADA_MISUSED;
            if (state == CLOSED) due = calls[i].closed;
            if (state == NO_CONNECTION) due = CICADA_RANGE;
            status = calls[i].call(it);
            holds(status == due, "%s in state %s: %d in place of %d", calls[i].name, state_names[state], status, due);
            if (state <= SNAPSHOT)
                holds(open_at(it) == what[(int)calls[i].then[state]], "%s in state %s leaves %u", calls[i].name, state_names[state], open_at(it));
            if (state == CLOSED) holds(open_at(it) == CICADA_CLOSED, "%s opens what is closed", calls[i].name);
            if (state == IN_POOL) holds(cicada_take(&pool, &it) == CICADA_OK && it == &home && open_at(it) == CICADA_NOTHING, "%s leaves the pool as it was", calls[i].name);
            if (state != NEVER_OPENED && state != NO_CONNECTION) holds(cicada_close(&home) == CICADA_OK, "close behind %s", calls[i].name);
        }
}

/* ---- numbers at and past their limits */

static void tables(void) {
    cicada_connection *it = in_state(TRANSACTION);
    static const uint32_t past[] = {8, 9, 4096, UINT32_MAX};
    holds(cicada_put(it, 7, UINT64_MAX, row) == CICADA_OK && cicada_get(it, 7, UINT64_MAX, got) == CICADA_OK, "the last key of the last table");
    holds(memcmp(row, got, sizeof row) == 0, "what was put is got");
    holds(cicada_put(it, 0, 0, row) == CICADA_OK && cicada_remove(it, 0, 0) == CICADA_OK && cicada_get(it, 0, 0, got) == CICADA_ABSENT, "the first key");
    for (size_t i = 0; i < sizeof past / sizeof *past; i++) {
        holds(cicada_get(it, past[i], 1, got) == CICADA_RANGE, "get of table %u", past[i]);
        holds(cicada_put(it, past[i], 1, row) == CICADA_RANGE, "put of table %u", past[i]);
        holds(cicada_remove(it, past[i], 1) == CICADA_RANGE, "remove of table %u", past[i]);
        holds(cicada_list(it, past[i], 0, 1, 0, NULL, NULL, &listed, &there) == CICADA_RANGE, "list of table %u", past[i]);
        holds(cicada_find(it, past[i], 1, 0, 1, 0, NULL, NULL, &listed, &there) == CICADA_RANGE, "find in table %u", past[i]);
        holds(cicada_declare_index(it, past[i], 1) == CICADA_RANGE, "index of table %u", past[i]);
        for (uint32_t kind = CICADA_GET; kind <= CICADA_SUBTRACT; kind++)
            holds(apply_one(it, operation(kind, past[i], 1), 1) == CICADA_RANGE && done == 0 && batch[0].status == CICADA_RANGE, "apply %u to table %u", kind,
                  past[i]);
    }
    for (uint32_t kind = CICADA_SUBTRACT + 1; kind < CICADA_SUBTRACT + 4; kind++)
        holds(apply_one(it, operation(kind, 0, 1), 1) == CICADA_RANGE, "apply of kind %u", kind);
    holds(open_at(it) == CICADA_TRANSACTION && commit(it) == CICADA_OK, "a number out of range ends nothing");
    cicada_close(it);
}

static void sizes(void) {
    static cicada_connection all[CICADA_MOST_CONNECTIONS + 1];
    static const struct {
        uint32_t rows, spare;
        size_t count;
        int32_t due;
    } each[] = {{0, 1, 1, CICADA_OK},
                {0, 0, 1, CICADA_OK},
                {10, 10, 0, CICADA_RANGE},
                {10, 10, 1, CICADA_OK},
                {10, 10, 64, CICADA_OK},
                {10, 10, 65, CICADA_RANGE},
                {10, 10, SIZE_MAX, CICADA_RANGE},
                {CICADA_MOST_ROWS, CICADA_MOST_SPARE, 1, CICADA_OK},
                {CICADA_MOST_ROWS, 0, 64, CICADA_OK},
                {CICADA_MOST_ROWS + 1, 1, 64, CICADA_RANGE},
                {CICADA_MOST_ROWS + 63 * 32, 1, 1, CICADA_OK},
                {CICADA_MOST_ROWS + 63 * 32 + 1, 1, 1, CICADA_RANGE},
                {UINT32_MAX, 1, 1, CICADA_RANGE},
                {UINT32_MAX, 0, 1, CICADA_RANGE},
                {UINT32_MAX - 4111, 0, 1, CICADA_RANGE},
                {10, CICADA_MOST_SPARE + 1, 1, CICADA_RANGE},
                {10, UINT32_MAX, 1, CICADA_RANGE}};
    for (size_t i = 0; i < sizeof each / sizeof *each; i++) {
        memset(all, 0, sizeof all);
        int32_t status = cicada_open(each[i].rows, each[i].spare, all, each[i].count);
        holds(status == each[i].due, "open of %u, %u, %zu: %d", each[i].rows, each[i].spare, each[i].count, status);
        for (size_t k = 0; status != CICADA_OK && k < CICADA_MOST_CONNECTIONS; k++)
            holds(all[k].at == NULL && all[k].home == NULL, "open that is refused writes nothing");
        for (size_t k = 0; status == CICADA_OK && k < each[i].count; k++) {
            holds(begin(&all[k]) == CICADA_OK && put(&all[k]) != CICADA_RANGE, "connection %zu of %zu", k, each[i].count);
            cicada_close(&all[k]);
        }
    }
}

static void stamps(void) {
    /* a stamp is 256 times a clock, which is 2^56 - 2 at most, and a seat below 64 */
    const uint64_t greatest = ((UINT64_C(1) << 56) - 2) * 256 + 63;
    cicada_connection *it = in_state(NOTHING);
    holds(cicada_hear(it, 0) == CICADA_OK && cicada_hear(it, 63) == CICADA_OK, "hear of the least stamps");
    holds(cicada_hear(it, 64) == CICADA_RANGE && cicada_hear(it, 255) == CICADA_RANGE, "hear of a seat past the last");
    holds(cicada_hear(it, greatest + 1) == CICADA_RANGE && cicada_hear(it, UINT64_MAX) == CICADA_RANGE, "hear past the greatest stamp");
    holds(cicada_begin(it, UINT64_MAX) == CICADA_OK && cicada_abort(it) == CICADA_OK, "a reading is any number");
    holds(cicada_tick(it, UINT64_MAX, &stamp) == CICADA_OK && stamp < greatest, "so is one of tick");
    holds(cicada_hear(it, greatest) == CICADA_OK, "hear of the greatest stamp");
    holds(begin(it) == CICADA_CLOCK_OUT && open_at(it) == CICADA_NOTHING, "begin behind it");
    holds(tick(it) == CICADA_CLOCK_OUT && open_at(it) == CICADA_NOTHING, "tick behind it");
    holds(collect(it) == CICADA_OK && snapshot(it) == CICADA_OK && finish(it) == CICADA_OK, "what draws no stamp goes on");
    holds(cicada_close(it) == CICADA_OK, "close behind it");
}

static void lists(void) {
    cicada_connection *it = in_state(TRANSACTION);
    for (uint64_t key = 0; key < 10; key++) cicada_put(it, 3, key * 10, row);
    struct {
        uint64_t low, high;
        size_t room, listed, there;
    } each[] = {{0, UINT64_MAX, 0, 0, 10}, {0, UINT64_MAX, 4, 4, 10}, {0, UINT64_MAX, 3, 3, 10},         {20, 40, 4, 3, 3},       {21, 29, 4, 0, 0},
                {90, 90, 4, 1, 1},         {40, 20, 4, 0, 0},         {UINT64_MAX, UINT64_MAX, 4, 0, 0}, {UINT64_MAX, 0, 4, 0, 0}};
    for (size_t i = 0; i < sizeof each / sizeof *each; i++) {
        listed = there = 99;
        int32_t status =
            cicada_list(it, 3, each[i].low, each[i].high, each[i].room, each[i].room == 0 ? NULL : keys, each[i].room == 0 ? NULL : rows, &listed, &there);
        holds(status == CICADA_OK && listed == each[i].listed && there == each[i].there, "list %zu: %d, %zu of %zu", i, status, listed, there);
        holds(listed == 0 || keys[0] >= each[i].low, "list %zu begins at its first key", i);
        there = 99;
        status = cicada_list(it, 3, each[i].low, each[i].high, each[i].room, keys, rows, &listed, NULL);
        holds(status == CICADA_OK && listed == each[i].listed && there == 99, "list %zu that counts nothing", i);
    }
    static uint64_t many_keys[10], many_rows[10][CICADA_COLUMNS];
    holds(cicada_list(it, 3, 0, UINT64_MAX, SIZE_MAX, many_keys, many_rows, &listed, NULL) == CICADA_OK && listed == 10, "room past every table");
    cicada_close(it);
}

static void indexes(void) {
    cicada_connection *it = in_state(TRANSACTION);
    static const uint32_t past[] = {0, 7, 8, UINT32_MAX};
    for (size_t i = 0; i < sizeof past / sizeof *past; i++) {
        holds(cicada_declare_index(it, 0, past[i]) == CICADA_RANGE, "index on column %u", past[i]);
        holds(cicada_find(it, 0, past[i], 0, 9, 0, NULL, NULL, &listed, &there) == CICADA_RANGE, "find by column %u", past[i]);
    }
    for (uint32_t column = 1; column <= CICADA_COLUMNS; column++) holds(cicada_declare_index(it, column, column) == CICADA_OK, "index on column %u", column);
    holds(cicada_declare_index(it, 1, 1) == CICADA_ABSENT && cicada_declare_index(it, 1, 2) == CICADA_ABSENT, "one index a table");
    cicada_put(it, 0, 1, row);
    holds(cicada_declare_index(it, 0, 1) == CICADA_ABSENT, "no index of a table with rows");
    for (uint64_t key = 0; key < 10; key++) {
        uint64_t ordered[CICADA_COLUMNS] = {0, 0, 1000 - key / 2 * 10, 0, 0, key};
        holds(cicada_put(it, 3, key, ordered) == CICADA_OK, "put with an index");
    }
    holds(cicada_find(it, 3, 2, 0, UINT64_MAX, 4, keys, rows, &listed, &there) == CICADA_ABSENT, "an index on another column");
    holds(cicada_find(it, 3, 3, 0, UINT64_MAX, 4, keys, rows, &listed, &there) == CICADA_OK && listed == 4 && there == 10, "find: %zu of %zu", listed, there);
    holds(keys[0] == 8 && keys[1] == 9 && keys[2] == 6 && keys[3] == 7 && rows[2][2] == 970, "by rising column, and then by rising key");
    holds(cicada_find(it, 3, 3, 980, 990, 4, keys, rows, &listed, NULL) == CICADA_OK && listed == 4 && keys[0] == 4 && keys[3] == 3, "both ends are included");
    holds(cicada_find(it, 3, 3, 981, 989, 0, NULL, NULL, &listed, &there) == CICADA_OK && there == 0, "nothing between");
    holds(cicada_find(it, 3, 3, 9, 3, 0, NULL, NULL, &listed, &there) == CICADA_OK && there == 0, "nothing from 9 to 3");
    holds(cicada_remove(it, 3, 8) == CICADA_OK && cicada_find(it, 3, 3, 0, UINT64_MAX, 4, keys, rows, &listed, &there) == CICADA_OK && keys[0] == 9 &&
              there == 9,
          "a row that is removed");
    row[2] = 5;
    holds(cicada_put(it, 3, 0, row) == CICADA_OK && cicada_find(it, 3, 3, 0, 900, 4, keys, rows, &listed, &there) == CICADA_OK && keys[0] == 0 && there == 1,
          "a row that is changed");
    row[2] = 3;
    holds(commit(it) == CICADA_OK, "and it commits");
    cicada_close(it);
}

static void adding(void) {
    cicada_connection *it = in_state(TRANSACTION);
    cicada_operation all[] = {operation(CICADA_PUT, 0, 1), operation(CICADA_ADD, 0, 1),      operation(CICADA_SUBTRACT, 0, 1),
                              operation(CICADA_ADD, 0, 2), operation(CICADA_SUBTRACT, 0, 1), operation(CICADA_PUT, 0, 2)};
    memcpy(all[0].row, (uint64_t[]){UINT64_MAX - 1, 5, 0, 0, 0, 7}, sizeof row);
    memcpy(all[2].row, (uint64_t[]){UINT64_MAX, 5, 0, 0, 0, 1}, sizeof row);
    memcpy(all[4].row, (uint64_t[]){0, 0, 0, 0, 0, 7}, sizeof row);
    holds(cicada_apply(it, all, 6, &done) == CICADA_RANGE && done == 4, "apply stops at the first that is refused: %zu", done);
    holds(all[1].row[0] == UINT64_MAX && all[2].row[0] == 0 && all[2].row[1] == 0 && all[2].row[5] == 6, "apply tells the rows");
    holds(all[3].status == CICADA_ABSENT, "add to no row");
    holds(cicada_get(it, 0, 2, got) == CICADA_ABSENT, "nothing behind it is done");
    holds(cicada_get(it, 0, 1, got) == CICADA_OK && got[5] == 6, "and it has changed nothing");
    all[0] = operation(CICADA_PUT, 0, 1);
    all[0].row[0] = UINT64_MAX;
    all[1] = operation(CICADA_ADD, 0, 1);
    holds(cicada_apply(it, all, 2, &done) == CICADA_RANGE && done == 1, "add past 64 bits");
    holds(open_at(it) == CICADA_TRANSACTION && commit(it) == CICADA_OK, "and the transaction commits");
    cicada_close(it);
}

/* ---- null */

static void nulls(void) {
    cicada_connection *it = in_state(NOTHING);
    holds(cicada_open(10, 10, NULL, 1) == CICADA_RANGE, "open into null");
    holds(cicada_opened(it, NULL) == CICADA_RANGE, "opened into null");
    holds(cicada_collect(it, NULL) == CICADA_OK, "collect need not tell");
    holds(cicada_tick(it, 0, NULL) == CICADA_OK, "tick need not tell");
    holds(cicada_count(it, NULL) == CICADA_RANGE, "count into null");
    holds(cicada_conflict(it, NULL, NULL) == CICADA_RANGE, "conflict into null");
    cicada_begin(it, 0);
    holds(cicada_get(it, 0, 1, NULL) == CICADA_RANGE && cicada_put(it, 0, 1, NULL) == CICADA_RANGE, "rows that are null");
    holds(cicada_list(it, 0, 0, 9, 0, NULL, NULL, NULL, &there) == CICADA_RANGE, "a count of what is listed that is null");
    holds(cicada_list(it, 0, 0, 9, 4, NULL, rows, &listed, NULL) == CICADA_RANGE, "keys that are null");
    holds(cicada_list(it, 0, 0, 9, 4, keys, NULL, &listed, NULL) == CICADA_RANGE, "listed rows that are null");
    holds(cicada_find(it, 0, 1, 0, 9, 0, NULL, NULL, NULL, &there) == CICADA_RANGE && cicada_find(it, 0, 1, 0, 9, 4, keys, NULL, &listed, NULL) == CICADA_RANGE,
          "find into null");
    holds(cicada_apply(it, NULL, 1, &done) == CICADA_RANGE && cicada_apply(it, batch, 1, NULL) == CICADA_RANGE, "batches that are null");
    holds(cicada_apply(it, NULL, 0, &done) == CICADA_OK && done == 0, "a batch of nothing");
    holds(cicada_commit(it, NULL, &record) == CICADA_RANGE && open_at(it) == CICADA_TRANSACTION, "commit into null ends nothing");
    holds(cicada_commit(it, &stamp, NULL) == CICADA_OK, "commit need not tell the record");
    cicada_snapshot(it);
    holds(cicada_finish(it, NULL) == CICADA_RANGE && open_at(it) == CICADA_SNAPSHOT, "finish into null ends nothing");
    cicada_close(it);
}

/* ---- a conflict, and what it leaves */

static void conflicts(void) {
    static cicada_connection two[2];
    uint64_t at = 0, last = 0;
    cicada_open(100, 0, two, 2);
    begin(&two[0]), put(&two[0]), commit(&two[0]);
    cicada_hear(&two[1], stamp);
    begin(&two[1]);
    holds(get(&two[1]) == CICADA_OK, "a commit that was heard of is seen");
    begin(&two[0]);
    cicada_tick(&two[0], 0, &last);
    holds(put(&two[0]) == CICADA_OK, "the other one writes");
    int32_t status = put(&two[1]);
    if (status == CICADA_OK) status = cicada_commit(&two[1], &at, &record);
    int32_t other = commit(&two[0]);
    holds((status == CICADA_CONFLICT) != (other == CICADA_CONFLICT) || (status == CICADA_OK && other == CICADA_OK), "one of two goes through: %d, %d", status,
          other);
    cicada_close(&two[0]), cicada_close(&two[1]);
    /* a later one reads what this one has read and will write */
    cicada_open(100, 0, two, 2);
    begin(&two[0]), put(&two[0]), commit(&two[0]);
    cicada_hear(&two[1], stamp);
    begin(&two[1]), get(&two[1]);
    cicada_hear(&two[0], stamp + 25600);
    begin(&two[0]), get(&two[0]);
    holds(commit(&two[0]) == CICADA_OK, "a later one reads the row, and commits");
    put(&two[1]);
    status = cicada_commit(&two[1], &at, &record);
    holds(status == CICADA_CONFLICT && at > 0, "a row that was read later is in the way: %d at %llu", status, (unsigned long long)at);
    holds(open_at(&two[1]) == CICADA_NOTHING, "commit at a conflict ends the transaction");
    holds(cicada_conflict(&two[1], &last, &number) == CICADA_OK && last == at && number == record, "the conflict is told again");
    holds(cicada_hear(&two[1], at) == CICADA_OK, "its stamp can be heard");
    holds(begin(&two[1]) == CICADA_OK && put(&two[1]) == CICADA_OK && commit(&two[1]) == CICADA_OK && stamp > at, "and then it comes through");
    cicada_close(&two[0]), cicada_close(&two[1]);
}

/* ---- a put that is refused half way is never committed */

static void half_a_put(void) {
    for (uint32_t room = 1; room < 60; room++) {
        uint64_t last = 0;
        int32_t status = CICADA_OK;
        cicada_open(room, 5000, &home, 1);
        for (uint64_t key = 0; status == CICADA_OK; key++) {
            begin(&home);
            status = cicada_put(&home, 0, key * 512, row);
            if (status == CICADA_OK) last = key + 1, commit(&home), collect(&home);
        }
        holds(status == CICADA_RECORDS_OUT && commit(&home) == CICADA_MISUSED, "%u records: a transaction without its put does not commit", room);
        holds(cicada_abort(&home) == CICADA_OK && begin(&home) == CICADA_OK, "%u records: it is aborted", room);
        holds(cicada_list(&home, 0, 0, UINT64_MAX, 0, NULL, NULL, &listed, &there) == CICADA_OK && there == last, "%u records: %zu rows in place of %llu", room,
              there, (unsigned long long)last);
        holds(cicada_get(&home, 0, last * 512, got) == CICADA_ABSENT && cicada_remove(&home, 0, last * 512) == CICADA_ABSENT, "%u records: nothing is torn",
              room);
        holds(last == 0 || cicada_remove(&home, 0, 0) == CICADA_OK, "%u records: rows can be removed", room);
        holds(commit(&home) == CICADA_OK, "%u records: the next one commits", room);
        cicada_close(&home);
    }
}

static void texts(void) {
    for (int32_t status = CICADA_OK; status <= CICADA_BUSY; status++)
        for (int32_t other = CICADA_OK; other < status; other++)
            holds(strcmp(cicada_status_text(status), cicada_status_text(other)) != 0, "texts of %d and %d", status, other);
    holds(strcmp(cicada_status_text(-1), "this is no status") == 0 && strcmp(cicada_status_text(10), "this is no status") == 0, "numbers that are no status");
    holds(strchr(cicada_version(), '.') != NULL, "a version");
}

/* ---- what a connection has left, and how much is queued */

static cicada_counts counts_of(cicada_connection *it) {
    cicada_counts now = {99, 99, 99, 99};
    holds(cicada_count(it, &now) == CICADA_OK, "the counts of a connection");
    return now;
}

static void what_is_left(void) {
    cicada_connection two[2];
    cicada_counts now, before;
    if (cicada_open(100, 100, two, 2) != CICADA_OK) return;
    before = counts_of(&two[0]);
    holds(before.commits == 0 && before.refusals == 0 && before.records == 32 && before.queued == 0, "each of two has 32 records at hand");
    cicada_begin(&two[0], 0), cicada_put(&two[0], 0, 1, row);
    holds(counts_of(&two[0]).records < 32, "a row that is put takes records at once");
    cicada_abort(&two[0]);
    now = counts_of(&two[0]);
    holds(now.records == 32 && now.queued == 0 && now.commits == 0 && now.refusals == 0, "an abort leaves all as it was");
    cicada_begin(&two[0], 0), cicada_put(&two[0], 0, 1, row);
    holds(commit(&two[0]) == CICADA_OK, "a put commits");
    before = counts_of(&two[0]);
    holds(before.commits == 1 && before.records < 32 && before.queued > 0, "a commit takes records, and queues what it wrote");
    cicada_begin(&two[0], 0), cicada_remove(&two[0], 0, 1);
    holds(commit(&two[0]) == CICADA_OK, "a removal commits");
    now = counts_of(&two[0]);
    holds(now.commits == 2 && now.records > before.records && now.queued > before.queued, "a removal gives records back");
    holds(counts_of(&two[1]).records == 32, "of another connection nothing is told");
    for (uint64_t reading = 1000; reading < 1003; reading++)
        for (int i = 0; i < 2; i++) holds(cicada_rest(&two[i], reading, NULL) == CICADA_OK, "a connection rests");
    holds(counts_of(&two[0]).queued == 0, "once all have rested nothing is queued");
    cicada_close(&two[0]), cicada_close(&two[1]);
}

int main(void) {
    each_call_in_each_state();
    what_is_left();
    tables();
    sizes();
    stamps();
    lists();
    indexes();
    adding();
    nulls();
    conflicts();
    half_a_put();
    texts();
    return counts();
}
