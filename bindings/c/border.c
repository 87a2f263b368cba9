/* What stands between C and the proved exports of crates/cicada_c. It tests what no export can: null pointers, connections that are copied, closed or were
 * never opened, and two threads in one connection. No proof covers this file. */
#include "border.h"

#include <string.h>

_Static_assert(sizeof(cicada_connection) == 64, "a connection is 64 bytes");
_Static_assert(sizeof(cicada_operation) == 72, "an operation is 72 bytes");

/* More rows than an engine can have. */
enum { ALL_ROWS = 200000 };

/* ---- into a connection, and out of it */

/* OK: this call alone is in the connection, which is not closed, and leaves it by `leave`. */
static int32_t enter(cicada_connection *it) {
    int32_t status = claim(it);
    if (status == CICADA_OK && it->at == NULL) {
        release(it);
        return CICADA_MISUSED;
    }
    return status;
}

static int32_t leave(cicada_connection *it, const conflict *noted, int32_t status) {
    if (status == CICADA_CONFLICT) {
        it->stamp = noted->stamp;
        it->record = noted->record;
        it->met = true;
    }
    release(it);
    return status;
}

/* ---- opening and closing */

int32_t cicada_open(uint32_t rows, uint32_t spare, cicada_connection *connections, size_t count) {
    void *made[CICADA_MOST_CONNECTIONS] = {0};
    conflict noted = {0};
    if (connections == NULL || count == 0 || count > CICADA_MOST_CONNECTIONS) return CICADA_RANGE;
    int32_t status = cicada_proved_open(rows, spare, made, count, &noted);
    if (status != CICADA_OK) return status;
    for (size_t i = 0; i < count; i++) {
        memset(&connections[i], 0, sizeof connections[i]);
        connections[i].at = made[i];
        connections[i].home = &connections[i];
    }
    return CICADA_OK;
}

int32_t cicada_close(cicada_connection *it) {
    int32_t status = claim(it);
    if (status != CICADA_OK) return status;
    close_claimed(it);
    release(it);
    return CICADA_OK;
}

int32_t cicada_opened(cicada_connection *it, uint32_t *opened) {
    if (opened == NULL) return CICADA_RANGE;
    int32_t status = claim(it);
    if (status != CICADA_OK) return status;
    *opened = it->at == NULL ? (uint32_t)CICADA_CLOSED : cicada_proved_opened(handle_of(it));
    release(it);
    return CICADA_OK;
}

/* ---- transactions and snapshots */

int32_t cicada_begin(cicada_connection *it, uint64_t reading) {
    conflict noted = {0};
    int32_t status = enter(it);
    if (status != CICADA_OK) return status;
    return leave(it, &noted, cicada_proved_begin(handle_of(it), reading, &noted));
}

int32_t cicada_commit(cicada_connection *it, uint64_t *stamp, uint32_t *record) {
    conflict noted = {0};
    if (stamp == NULL) return CICADA_RANGE;
    int32_t status = enter(it);
    if (status != CICADA_OK) return status;
    status = cicada_proved_commit(handle_of(it), stamp, &noted);
    if (status == CICADA_OK) it->committed = *stamp;
    if (status == CICADA_CONFLICT) {
        *stamp = noted.stamp;
        if (record != NULL) *record = noted.record;
    }
    return leave(it, &noted, status);
}

int32_t cicada_abort(cicada_connection *it) {
    conflict noted = {0};
    int32_t status = enter(it);
    if (status != CICADA_OK) return status;
    return leave(it, &noted, cicada_proved_abort(handle_of(it), &noted));
}

int32_t cicada_conflict(cicada_connection *it, uint64_t *stamp, uint32_t *record) {
    if (stamp == NULL) return CICADA_RANGE;
    int32_t status = enter(it);
    if (status != CICADA_OK) return status;
    if (it->met) {
        *stamp = it->stamp;
        if (record != NULL) *record = it->record;
    } else {
        status = CICADA_ABSENT;
    }
    release(it);
    return status;
}

int32_t cicada_snapshot(cicada_connection *it) {
    conflict noted = {0};
    int32_t status = enter(it);
    if (status != CICADA_OK) return status;
    return leave(it, &noted, cicada_proved_snapshot(handle_of(it), &noted));
}

int32_t cicada_finish(cicada_connection *it, uint64_t *stamp) {
    conflict noted = {0};
    if (stamp == NULL) return CICADA_RANGE;
    int32_t status = enter(it);
    if (status != CICADA_OK) return status;
    return leave(it, &noted, cicada_proved_finish(handle_of(it), stamp, &noted));
}

/* ---- rows */

int32_t cicada_get(cicada_connection *it, uint32_t table, uint64_t key, uint64_t row[CICADA_COLUMNS]) {
    conflict noted = {0};
    if (row == NULL) return CICADA_RANGE;
    int32_t status = enter(it);
    if (status != CICADA_OK) return status;
    return leave(it, &noted, cicada_proved_get(handle_of(it), table, key, row, &noted));
}

int32_t cicada_put(cicada_connection *it, uint32_t table, uint64_t key, const uint64_t row[CICADA_COLUMNS]) {
    conflict noted = {0};
    if (row == NULL) return CICADA_RANGE;
    int32_t status = enter(it);
    if (status != CICADA_OK) return status;
    return leave(it, &noted, cicada_proved_put(handle_of(it), table, key, row, &noted));
}

int32_t cicada_remove(cicada_connection *it, uint32_t table, uint64_t key) {
    conflict noted = {0};
    int32_t status = enter(it);
    if (status != CICADA_OK) return status;
    return leave(it, &noted, cicada_proved_remove(handle_of(it), table, key, &noted));
}

/* Rows that are to be read: where they go, and how many are asked for. An array of no places has one all the same, since null is none to an export. */
typedef struct {
    uint64_t none, none_row[1][CICADA_COLUMNS], *keys, (*rows)[CICADA_COLUMNS];
    size_t room, count;
    uint32_t limit;
} listing;

static bool is_listing(size_t room, const uint64_t *keys, uint64_t (*rows)[CICADA_COLUMNS], const size_t *listed) {
    return listed != NULL && (room == 0 || (keys != NULL && rows != NULL));
}

static void begin_listing(listing *it, size_t room, uint64_t *keys, uint64_t (*rows)[CICADA_COLUMNS], const size_t *there) {
    it->room = room > ALL_ROWS ? ALL_ROWS : room;
    it->keys = room == 0 ? &it->none : keys;
    it->rows = room == 0 ? it->none_row : rows;
    it->limit = there == NULL ? (uint32_t)it->room : ALL_ROWS;
    it->count = 0;
}

static void tell_listing(const listing *it, int32_t status, size_t *listed, size_t *there) {
    if (status != CICADA_OK) return;
    *listed = it->count < it->room ? it->count : it->room;
    if (there != NULL) *there = it->count;
}

int32_t cicada_list(cicada_connection *it, uint32_t table, uint64_t low, uint64_t high, size_t room, uint64_t *keys,
                    uint64_t (*rows)[CICADA_COLUMNS], size_t *listed, size_t *there) {
    conflict noted = {0};
    listing to;
    if (!is_listing(room, keys, rows, listed)) return CICADA_RANGE;
    begin_listing(&to, room, keys, rows, there);
    int32_t status = enter(it);
    if (status != CICADA_OK) return status;
    status = cicada_proved_list(handle_of(it), table, low, high, to.limit, to.keys, to.room, to.rows, to.room, &to.count, &noted);
    tell_listing(&to, status, listed, there);
    return leave(it, &noted, status);
}

int32_t cicada_find(cicada_connection *it, uint32_t table, uint32_t column, uint64_t low, uint64_t high, size_t room, uint64_t *keys,
                    uint64_t (*rows)[CICADA_COLUMNS], size_t *listed, size_t *there) {
    conflict noted = {0};
    listing to;
    if (!is_listing(room, keys, rows, listed)) return CICADA_RANGE;
    begin_listing(&to, room, keys, rows, there);
    int32_t status = enter(it);
    if (status != CICADA_OK) return status;
    status = cicada_proved_find(handle_of(it), table, column, low, high, to.limit, to.keys, to.room, to.rows, to.room, &to.count, &noted);
    tell_listing(&to, status, listed, there);
    return leave(it, &noted, status);
}

int32_t cicada_declare_index(cicada_connection *it, uint32_t table, uint32_t column) {
    conflict noted = {0};
    int32_t status = enter(it);
    if (status != CICADA_OK) return status;
    return leave(it, &noted, cicada_proved_declare_index(handle_of(it), table, column, &noted));
}

/* Adds to each column, or takes from it; false where one would leave its range, and nothing has changed. */
static bool change(uint64_t row[CICADA_COLUMNS], const uint64_t by[CICADA_COLUMNS], bool add) {
    uint64_t changed[CICADA_COLUMNS];
    for (int i = 0; i < CICADA_COLUMNS; i++) {
        bool left = add ? __builtin_add_overflow(row[i], by[i], &changed[i]) : __builtin_sub_overflow(row[i], by[i], &changed[i]);
        if (left) return false;
    }
    memcpy(row, changed, sizeof changed);
    return true;
}

static int32_t changing(handle *it, cicada_operation *operation, conflict *noted) {
    uint64_t row[CICADA_COLUMNS];
    int32_t status = cicada_proved_get(it, operation->table, operation->key, row, noted);
    if (status != CICADA_OK) return status;
    if (!change(row, operation->row, operation->kind == CICADA_ADD)) return CICADA_RANGE;
    status = cicada_proved_put(it, operation->table, operation->key, row, noted);
    if (status == CICADA_OK) memcpy(operation->row, row, sizeof row);
    return status;
}

static int32_t operate(handle *it, cicada_operation *operation, conflict *noted) {
    switch (operation->kind) {
    case CICADA_GET: return cicada_proved_get(it, operation->table, operation->key, operation->row, noted);
    case CICADA_PUT: return cicada_proved_put(it, operation->table, operation->key, operation->row, noted);
    case CICADA_REMOVE: return cicada_proved_remove(it, operation->table, operation->key, noted);
    case CICADA_ADD:
    case CICADA_SUBTRACT: return changing(it, operation, noted);
    default: return CICADA_RANGE;
    }
}

int32_t cicada_apply(cicada_connection *it, cicada_operation *operations, size_t count, size_t *done) {
    conflict noted = {0};
    if (done == NULL || (count != 0 && operations == NULL)) return CICADA_RANGE;
    int32_t status = enter(it);
    if (status != CICADA_OK) return status;
    uint32_t opened = cicada_proved_opened(handle_of(it));
    if (opened != CICADA_TRANSACTION && opened != CICADA_SNAPSHOT) {
        release(it);
        return CICADA_MISUSED;
    }
    size_t i = 0;
    for (; i < count && status == CICADA_OK; i++) {
        int32_t now = operate(handle_of(it), &operations[i], &noted);
        operations[i].status = now;
        if (now > CICADA_ABSENT) {
            status = now;
            break;
        }
    }
    *done = i;
    return leave(it, &noted, status);
}

/* ---- between transactions */

int32_t cicada_collect(cicada_connection *it, uint32_t *places) {
    conflict noted = {0};
    uint32_t freed = 0;
    int32_t status = enter(it);
    if (status != CICADA_OK) return status;
    status = cicada_proved_collect(handle_of(it), &freed, &noted);
    if (status == CICADA_OK && places != NULL) *places = freed;
    return leave(it, &noted, status);
}

int32_t cicada_hear(cicada_connection *it, uint64_t stamp) {
    conflict noted = {0};
    int32_t status = enter(it);
    if (status != CICADA_OK) return status;
    return leave(it, &noted, cicada_proved_hear(handle_of(it), stamp, &noted));
}

int32_t cicada_tick(cicada_connection *it, uint64_t reading, uint64_t *stamp) {
    conflict noted = {0};
    uint64_t drawn = 0;
    int32_t status = enter(it);
    if (status != CICADA_OK) return status;
    status = cicada_proved_tick(handle_of(it), reading, &drawn, &noted);
    if (status == CICADA_OK && stamp != NULL) *stamp = drawn;
    return leave(it, &noted, status);
}

int32_t cicada_rest(cicada_connection *it, uint64_t reading, uint64_t *stamp) {
    conflict noted = {0};
    uint64_t drawn = 0;
    uint32_t freed = 0;
    int32_t status = enter(it);
    if (status != CICADA_OK) return status;
    status = cicada_proved_tick(handle_of(it), reading, &drawn, &noted);
    if (status == CICADA_OK) {
        if (stamp != NULL) *stamp = drawn;
        status = cicada_proved_collect(handle_of(it), &freed, &noted);
    }
    return leave(it, &noted, status);
}

int32_t cicada_count(cicada_connection *it, cicada_counts *counts) {
    conflict noted = {0};
    if (counts == NULL) return CICADA_RANGE;
    int32_t status = enter(it);
    if (status != CICADA_OK) return status;
    return leave(it, &noted, cicada_proved_counts(handle_of(it), counts, &noted));
}

/* ---- texts */

const char *cicada_status_text(int32_t status) {
    switch (status) {
    case CICADA_OK: return "it is done";
    case CICADA_ABSENT: return "there is no row at the key";
    case CICADA_CONFLICT: return "another transaction is in the way: begin again";
    case CICADA_PLACES_OUT: return "no place for versions is left: collect, and begin again";
    case CICADA_RECORDS_OUT: return "no record is left for a row";
    case CICADA_NO_MEMORY: return "no memory is left";
    case CICADA_CLOCK_OUT: return "the clock of the connection has come to its end";
    case CICADA_RANGE: return "a number is out of its range, or a pointer is null";
    case CICADA_MISUSED: return "what is open at the connection does not fit the call, or it is closed, copied or in a pool";
    case CICADA_BUSY: return "another call is in this connection, or all of the pool are taken";
    default: return "this is no status";
    }
}

const char *cicada_version(void) {
    return CICADA_IS_PROVED ? CICADA_VERSION : CICADA_VERSION "+unproved";
}
