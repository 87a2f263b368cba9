/* Cicada: serializable transactions over tables in memory. docs/EMBEDDING.md begins at the beginning.
 *
 * What the caller owes, since nothing can test it:
 *   - each pointer leads to as much memory as the call says, aligned for its type, which lives and is touched by nobody else for the call;
 *   - a cicada_connection is written by cicada_open alone, and lives until it is closed; whatever else lies in its 64 bytes is not touched;
 *   - no call is made by a signal handler, or in the child of a fork of a process with threads;
 *   - malloc, realloc and free of the process come from one allocator, and give blocks that are aligned to 16 bytes;
 *   - 64 KB of stack are free at each call.
 * All else is tested, and answered by a status. No call waits for another one, starts a thread, or prints.
 *
 * A connection is what one thread works at; it may go from thread to thread. Two threads that call at one connection at once are told so (BUSY).
 * A connection that rests holds the others of its engine back: their snapshots lag, their versions are not taken back, and their places run out.
 * So it calls cicada_rest a few times a second, or is closed.
 */
#ifndef CICADA_H
#define CICADA_H

#include <stddef.h>
#include <stdint.h>

#ifdef __cplusplus
#define CICADA_ALIGNED alignas(64)
extern "C" {
#else
#define CICADA_ALIGNED _Alignas(64)
#endif

enum {
    CICADA_TABLES = 8,             /* tables are 0 to 7 */
    CICADA_COLUMNS = 6,            /* of a row, each a number of 64 bits */
    CICADA_MOST_CONNECTIONS = 64,
    CICADA_MOST_ROWS = 193840,     /* records for rows, and 32 more for each connection below 64: two a row, up to six where rows come and go */
    CICADA_MOST_SPARE = 262144
};

/* What a call answers. "As before" is the connection with what is open there, all rows, and all that the call was to write. */
typedef enum {
    CICADA_OK = 0,           /* It is done. */
    CICADA_ABSENT = 1,       /* There is no row at the key, and the call has written none. Go on. */
    CICADA_CONFLICT = 2,     /* Another transaction is in the way; this one leaves nothing. From commit: nothing is open. From a call on rows: abort is
                                the one call that is left. Then hear what cicada_conflict tells, collect, pause, and begin again. */
    CICADA_PLACES_OUT = 3,   /* No place is left for a version; the transaction leaves nothing, and nothing is open. Collect, let other threads go on,
                                and begin again. Where it stays so: open with more spare places, or have resting connections call cicada_rest. */
    CICADA_RECORDS_OUT = 4,  /* No record is left for a row, at any connection; the transaction leaves nothing, and abort is the one call that is left.
                                Where others have removed rows since it began, begin again; else remove rows, or open with more. */
    CICADA_NO_MEMORY = 5,    /* malloc answered null. From open, begin and in a snapshot: as before. From a call on rows in a transaction: it leaves
                                nothing, and abort is the one call that is left. */
    CICADA_CLOCK_OUT = 6,    /* The clock of the connection has come to its end. As before. Close the connection; others go on. */
    CICADA_RANGE = 7,        /* A number is out of its range, or a pointer is null. As before. The call has to be mended. */
    CICADA_MISUSED = 8,      /* What is open does not fit the call, or the connection is closed, copied, in a pool, or was never opened. As before. Mend
                                the call. */
    CICADA_BUSY = 9          /* Another call is in this connection at this moment. As before, but for that other call. Mend the threads. Of a pool: all
                                of its connections are taken. Give one back, and take again. */
} cicada_status;

/* A sentence for each status, in English, without a full stop. */
const char *cicada_status_text(int32_t status);

/* The version, as "1.2.3"; with "+unproved" behind it where the library was built without its proofs. */
const char *cicada_version(void);

/* A connection to an engine. It stays where cicada_open wrote it: a copy answers MISUSED. */
typedef struct cicada_connection {
    CICADA_ALIGNED void *at;
    void *home;
    uint64_t stamp;
    uint32_t record;
    uint32_t met;
    uint32_t word;
    uint32_t reserved;
    uint64_t committed;
    uint64_t more[2];
} cicada_connection;

/* Makes an engine of eight empty tables, with so many connections (1 to 64), records for rows (0 to CICADA_MOST_ROWS) and spare places for versions (1
 * to CICADA_MOST_SPARE; 0: as many as is advised, one for each record and 10,000 for each connection). Records are there for whichever connection puts
 * rows; beside those asked for there are 32 for each connection, since it may keep so many to itself. All memory of the engine is taken here: 344 bytes
 * for each record and for 4,112 more, 288 for each spare place, and as much again while it opens. Nothing is written where it does not answer OK.
 * NO_MEMORY, RANGE. */
int32_t cicada_open(uint32_t rows, uint32_t spare, cicada_connection *connections, size_t count);

/* Ends what is open, without a trace of a transaction, and the connection; gives back its memory, and with the last one that of the engine. OK also
 * where it is closed already. Versions that are queued at it are not taken back until their rows are written again: where others go on, call cicada_rest
 * first, until none is queued. RANGE, MISUSED (a copy, in a pool, or never opened), BUSY. */
int32_t cicada_close(cicada_connection *connection);

/* What is open at a connection. */
enum {
    CICADA_NOTHING = 0,      /* begin, snapshot, collect, hear, tick, rest */
    CICADA_TRANSACTION = 1,  /* get, put, remove, list, find, apply, declare_index, commit, abort */
    CICADA_SPOILED = 2,      /* abort alone: a call on rows has ended the transaction */
    CICADA_SNAPSHOT = 3,     /* get, list, find, apply of gets, finish */
    CICADA_CLOSED = 4        /* close alone */
};
int32_t cicada_opened(cicada_connection *connection, uint32_t *opened);

/* ---- transactions: all that one reads and writes happens at one moment, that of its stamp, or not at all */

/* Begins a transaction. `reading` is what a clock shows that all threads read, best in nanoseconds since the process began; 0 at each call counts. Stamps go
 * by it, and who lags is refused more often. What is above 2^55 counts as 2^55: nanoseconds last 416 days, and those since 1970 do not serve.
 * NO_MEMORY, CLOCK_OUT. */
int32_t cicada_begin(cicada_connection *connection, uint64_t reading);

/* Ends the transaction, whatever it answers but RANGE, MISUSED and BUSY. OK: it has committed at `stamp`. CONFLICT: `stamp` is to be heard before the
 * next try, and is in the way at `record`. `record` may be null. CONFLICT, PLACES_OUT. */
int32_t cicada_commit(cicada_connection *connection, uint64_t *stamp, uint32_t *record);

/* Ends the transaction without a trace. What records it has too many of go to other connections, as behind commit and collect. */
int32_t cicada_abort(cicada_connection *connection);

/* The last CONFLICT of this connection: the stamp to be heard, and the record. `record` may be null. ABSENT: there was none. */
int32_t cicada_conflict(cicada_connection *connection, uint64_t *stamp, uint32_t *record);

/* ---- snapshots: all rows as they were at one moment; never refused by others */

/* Begins a snapshot. It may be older than commits that have returned, also those of this connection. */
int32_t cicada_snapshot(cicada_connection *connection);

/* Ends the snapshot, and tells its stamp: all commits up to it were seen, and none above it. */
int32_t cicada_finish(cicada_connection *connection, uint64_t *stamp);

/* ---- rows, in a transaction or a snapshot */

/* Reads the row of a table at a key. ABSENT, and in a transaction CONFLICT, NO_MEMORY. */
int32_t cicada_get(cicada_connection *connection, uint32_t table, uint64_t key, uint64_t row[CICADA_COLUMNS]);

/* Reads the rows with keys from `low` to `high`, both included, by rising key: the first `room` of them, into `keys` and `rows`, and tells how many it
 * has `listed`. With `there`, which may be null, it goes through all and tells how many there are. Both arrays may be null where `room` is 0. It takes
 * memory for each row that it goes through, and gives it back. NO_MEMORY, and in a transaction CONFLICT. */
int32_t cicada_list(cicada_connection *connection, uint32_t table, uint64_t low, uint64_t high, size_t room, uint64_t *keys,
                    uint64_t (*rows)[CICADA_COLUMNS], size_t *listed, size_t *there);

/* Reads rows by the index of a table: those whose `column` (1 to 6) lies from `low` to `high`, both included, by rising column and then by rising key, as
 * cicada_list does. ABSENT: the table's index is not on that column, or there is none. NO_MEMORY, and in a transaction CONFLICT. */
int32_t cicada_find(cicada_connection *connection, uint32_t table, uint32_t column, uint64_t low, uint64_t high, size_t room, uint64_t *keys,
                    uint64_t (*rows)[CICADA_COLUMNS], size_t *listed, size_t *there);

/* ---- rows, in a transaction alone; it sees at once what it has written, and the others once it commits */

/* Sets the row of a table at a key, whether there is one or not. CONFLICT, RECORDS_OUT, NO_MEMORY. */
int32_t cicada_put(cicada_connection *connection, uint32_t table, uint64_t key, const uint64_t row[CICADA_COLUMNS]);

/* Takes the row of a table at a key out. ABSENT, CONFLICT, NO_MEMORY. */
int32_t cicada_remove(cicada_connection *connection, uint32_t table, uint64_t key);

/* Declares an index of a table on a column (1 to 6), while the table has no row and no index. ABSENT: it has one of these, and nothing has changed.
 * CONFLICT, NO_MEMORY. */
int32_t cicada_declare_index(cicada_connection *connection, uint32_t table, uint32_t column);

/* One operation of a batch: what is to be done, and what came of it. */
enum { CICADA_GET = 0, CICADA_PUT = 1, CICADA_REMOVE = 2, CICADA_ADD = 3, CICADA_SUBTRACT = 4 };
typedef struct cicada_operation {
    uint32_t kind;
    uint32_t table;
    uint64_t key;
    uint64_t row[CICADA_COLUMNS];  /* PUT: the row. ADD, SUBTRACT: what is added to each column, or taken from it; then, as at GET, the row that is there */
    int32_t status;
    uint32_t reserved;
} cicada_operation;

/* Does the operations in their order, each as the call of its name does, up to the first one that answers neither OK nor ABSENT, and answers as that one.
 * `done` is how many came before it. ADD and SUBTRACT read a row, change all its columns, and put it: ABSENT where there is none, RANGE where a column
 * would leave its 64 bits; such an operation changes nothing. `operations` may be null where `count` is 0. */
int32_t cicada_apply(cicada_connection *connection, cicada_operation *operations, size_t count, size_t *done);

/* ---- between transactions, while nothing is open */

/* Takes back versions that nobody can read any more, as far as the other connections have come; `places` is how many places were freed, and may be
 * null. Every connection calls it now and then: each 64 transactions, and after PLACES_OUT. */
int32_t cicada_collect(cicada_connection *connection, uint32_t *places);

/* Each later stamp of this connection is above this one. Who has to see a commit of another thread hears its stamp first. RANGE: the number is that of
 * no stamp. */
int32_t cicada_hear(cicada_connection *connection, uint64_t stamp);

/* Draws a stamp that no transaction gets, with a reading of the clock of `begin`: nobody waits for what this connection might do below it. `stamp` may be
 * null. CLOCK_OUT. */
int32_t cicada_tick(cicada_connection *connection, uint64_t reading, uint64_t *stamp);

/* What a resting connection calls a few times a second, with a reading of the clock of `begin`: it ticks and then collects. `stamp`
 * may be null. CLOCK_OUT. */
int32_t cicada_rest(cicada_connection *connection, uint64_t reading, uint64_t *stamp);

/* What a connection has done and has, at any time. It takes some nanoseconds. */
typedef struct cicada_counts {
    uint64_t commits;   /* transactions of this connection that committed */
    uint64_t refusals;  /* and that were refused */
    uint64_t records;   /* records that it has at hand for new rows: it takes more where it has fewer than 12, and keeps up to 32 between transactions */
    uint64_t queued;    /* versions that it has committed, and below which collect has not come yet: they hold places */
} cicada_counts;
int32_t cicada_count(cicada_connection *connection, cicada_counts *counts);

/* ---- a pool: connections for threads that come and go, or that are more than the connections; it may be called by all threads at once */

/* Connections that go round: who takes one gets that which has rested longest. So none of them rests while others work, and the records of rows that are
 * removed come to all. It stays where cicada_share wrote it: a copy answers MISUSED. */
typedef struct cicada_pool {
    CICADA_ALIGNED void *home;
    cicada_connection *connections;
    uint64_t count;
    uint64_t tickets;
    uint64_t committed;
    uint64_t rested[CICADA_MOST_CONNECTIONS];
} cicada_pool;

/* Puts connections into a new pool, side by side as cicada_open wrote them (1 to 64); nothing is open at any. Each is used from now on by who has taken it, and
 * lives until the pool is closed. Nothing is written where it does not answer OK. RANGE, MISUSED (one of them is in a pool, closed, or has something open),
 * BUSY (another call is in one). */
int32_t cicada_share(cicada_connection *connections, size_t count, cicada_pool *pool);

/* Takes the connection that has rested longest. All that was committed at connections of this pool before they were given back is below its next stamp: its
 * next transaction sees it. RANGE, MISUSED, BUSY (all are taken). */
int32_t cicada_take(cicada_pool *pool, cicada_connection **connection);

/* Gives a connection back that was taken from this pool. RANGE, MISUSED (it was not, or is closed, or something is open: it stays with the caller), BUSY. */
int32_t cicada_give_back(cicada_pool *pool, cicada_connection *connection);

/* Closes all connections of a pool, and the pool. OK also where it is closed already. BUSY: some are taken, and none was closed. RANGE, MISUSED. */
int32_t cicada_close_pool(cicada_pool *pool);

#ifdef __cplusplus
}
#endif
#endif
