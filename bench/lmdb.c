/* The same blocks on LMDB, through its C interface, in a folder in memory (BENCH_TMPFS, or /dev/shm), with MDB_NOSYNC and MDB_WRITEMAP:
 * each block is one transaction.
 *
 * It does: rows by key in one B+ tree for each table, an index as a tree of pairs (value, key), what is refused is aborted.
 * It doesn't: bring anything to a disk, or run blocks beside each other (LMDB has one writer; its readers could run beside it). */
#include "text.h"
#include <lmdb.h>
#include <sys/stat.h>
#include <unistd.h>

static MDB_env *environment;
static MDB_txn *txn;
static MDB_dbi rows_of[TABLES], index_of[TABLES];
static char folder[256];

static void check(int code) {
  if (code && code != MDB_NOTFOUND && code != MDB_KEYEXIST) fail(mdb_strerror(code));
}

static void store_open(void) {
  const char *base = getenv("BENCH_TMPFS");
  snprintf(folder, sizeof folder, "%s/cicada-bench-XXXXXX", base ? base : "/dev/shm");
  if (!mkdtemp(folder)) fail("no folder for LMDB");
  check(mdb_env_create(&environment));
  check(mdb_env_set_mapsize(environment, (size_t)1 << 30));
  check(mdb_env_set_maxdbs(environment, 2 * TABLES));
  check(mdb_env_open(environment, folder, MDB_NOSYNC | MDB_WRITEMAP | MDB_NOTLS, 0600));
  check(mdb_txn_begin(environment, NULL, 0, &txn));
  for (int t = 0; t < table_count; t++) {
    char name[24];
    sprintf(name, "rows %.16s", tables[t].name);
    check(mdb_dbi_open(txn, name, MDB_CREATE | MDB_INTEGERKEY, &rows_of[t]));
    sprintf(name, "index %.16s", tables[t].name);
    if (tables[t].indexed) check(mdb_dbi_open(txn, name, MDB_CREATE, &index_of[t]));
  }
  check(mdb_txn_commit(txn));
}

static void store_begin(int reads) { check(mdb_txn_begin(environment, NULL, reads ? MDB_RDONLY : 0, &txn)); }

static void store_end(int commits) {
  if (commits) check(mdb_txn_commit(txn));
  else mdb_txn_abort(txn);
}

static MDB_val value_of(const void *data, size_t size) { return (MDB_val){size, (void *)data}; }

static int store_get(int table, uint64_t key, uint64_t *row) {
  MDB_val k = value_of(&key, 8), v;
  int code = mdb_get(txn, rows_of[table], &k, &v);
  check(code);
  if (!code) memcpy(row, v.mv_data, v.mv_size);
  return !code;
}

/* An index's key: the value, then the row's key, greatest byte first. */
static void set_pair(uint64_t pair[2], uint64_t value, uint64_t key) { pair[0] = __builtin_bswap64(value), pair[1] = __builtin_bswap64(key); }

/* Brings the index from the old row to the new one, each of which may be NULL. */
static void change_index(int table, uint64_t key, const uint64_t *old, const uint64_t *row) {
  int c = tables[table].indexed;
  if (!c || (old && row && old[c - 1] == row[c - 1])) return;
  uint64_t pair[2];
  MDB_val k = value_of(pair, 16), v = value_of("", 0);
  if (old) {
    set_pair(pair, old[c - 1], key);
    check(mdb_del(txn, index_of[table], &k, NULL));
  }
  if (row) {
    set_pair(pair, row[c - 1], key);
    check(mdb_put(txn, index_of[table], &k, &v, 0));
  }
}

static int put_row(int table, uint64_t key, const uint64_t *row, unsigned flags) {
  MDB_val k = value_of(&key, 8), v = value_of(row, 8 * tables[table].columns);
  int code = mdb_put(txn, rows_of[table], &k, &v, flags);
  check(code);
  return code;
}

static void store_put(int table, uint64_t key, const uint64_t *row) {
  uint64_t old[COLUMNS];
  int there = tables[table].indexed && store_get(table, key, old);
  put_row(table, key, row, 0);
  change_index(table, key, there ? old : NULL, row);
}

static int store_insert(int table, uint64_t key, const uint64_t *row) {
  if (put_row(table, key, row, MDB_NOOVERWRITE) == MDB_KEYEXIST) return 0;
  change_index(table, key, NULL, row);
  return 1;
}

static int store_delete(int table, uint64_t key) {
  uint64_t old[COLUMNS];
  if (tables[table].indexed && store_get(table, key, old)) change_index(table, key, old, NULL);
  MDB_val k = value_of(&key, 8);
  int code = mdb_del(txn, rows_of[table], &k, NULL);
  check(code);
  return code != MDB_NOTFOUND;
}

static const char *store_change(const Command *c) {
  uint64_t old[COLUMNS], row[COLUMNS];
  if (!store_get(c->table, c->key, old)) return "missing";
  if (c->verb == SUB && old[c->column - 1] < c->most) return "short";
  memcpy(row, old, sizeof row);
  row[c->column - 1] += c->verb == ADD ? c->most : -c->most;
  put_row(c->table, c->key, row, 0);
  change_index(c->table, c->key, old, row);
  return NULL;
}

static void store_scan(int table, uint64_t low, uint64_t high, uint64_t most, const char *start) {
  MDB_cursor *cursor;
  MDB_val k = value_of(&low, 8), v;
  check(mdb_cursor_open(txn, rows_of[table], &cursor));
  int code = mdb_cursor_get(cursor, &k, &v, MDB_SET_RANGE);
  for (; !code && most > 0; most--, code = mdb_cursor_get(cursor, &k, &v, MDB_NEXT)) {
    uint64_t key, row[COLUMNS];
    memcpy(&key, k.mv_data, 8);
    if (key > high) break;
    memcpy(row, v.mv_data, v.mv_size);
    write_row(start, table, key, row);
  }
  check(code);
  mdb_cursor_close(cursor);
}

static void store_find(const Command *c) {
  MDB_cursor *cursor;
  uint64_t pair[2], most = c->most;
  set_pair(pair, c->key, 0);
  MDB_val k = value_of(pair, 16), v;
  check(mdb_cursor_open(txn, index_of[c->table], &cursor));
  int code = mdb_cursor_get(cursor, &k, &v, MDB_SET_RANGE);
  for (; !code && most > 0; most--, code = mdb_cursor_get(cursor, &k, &v, MDB_NEXT)) {
    uint64_t found[2], row[COLUMNS];
    memcpy(found, k.mv_data, 16);
    if (__builtin_bswap64(found[0]) > c->high) break;
    uint64_t key = __builtin_bswap64(found[1]);
    store_get(c->table, key, row);
    write_row(": ", c->table, key, row);
  }
  check(code);
  mdb_cursor_close(cursor);
}

static void store_close(void) {
  char path[300];
  mdb_env_close(environment);
  snprintf(path, sizeof path, "%s/data.mdb", folder), unlink(path);
  snprintf(path, sizeof path, "%s/lock.mdb", folder), unlink(path);
  rmdir(folder);
}

static const char *store_version(void) { return mdb_version(NULL, NULL, NULL); }
