/* The same blocks on SQLite, in memory, through its C interface: statements are prepared once, and each block is one transaction.
 *
 * It does: rows in a table by key, columns as SQLite's integers, an index by CREATE INDEX, a roll back of what is refused.
 * It doesn't: keep anything on a disk, write a log, or run blocks beside each other (SQLite has one writer). */
#include "text.h"
#include <sqlite3.h>

typedef struct {
  sqlite3_stmt *get, *put, *insert, *delete, *scan, *find, *add[COLUMNS], *sub[COLUMNS];
} Statements;

static sqlite3 *database;
static sqlite3_stmt *begin_stmt, *commit_stmt, *rollback_stmt;
static Statements of[TABLES];

static void check(int code) {
  if (code != SQLITE_OK && code != SQLITE_DONE && code != SQLITE_ROW) fail(sqlite3_errmsg(database));
}

static sqlite3_stmt *prepare(const char *sql) {
  sqlite3_stmt *made;
  check(sqlite3_prepare_v3(database, sql, -1, SQLITE_PREPARE_PERSISTENT, &made, NULL));
  return made;
}

static void run(sqlite3_stmt *statement) {
  check(sqlite3_step(statement));
  check(sqlite3_reset(statement));
}

static void bind(sqlite3_stmt *statement, int place, uint64_t number) { check(sqlite3_bind_int64(statement, place, (int64_t)number)); }

static void open_table(int t) {
  char sql[512], columns[128] = "", places[64] = "";
  const char *name = tables[t].name;
  for (int i = 1; i <= tables[t].columns; i++) {
    sprintf(columns + strlen(columns), ", c%d", i);
    sprintf(places + strlen(places), ", ?%d", i + 1);
  }
  sprintf(sql, "CREATE TABLE t_%s(k INTEGER PRIMARY KEY%s)", name, columns);
  check(sqlite3_exec(database, sql, NULL, NULL, NULL));
  sprintf(sql, "SELECT k%s FROM t_%s WHERE k = ?1", columns, name);
  of[t].get = prepare(sql);
  sprintf(sql, "INSERT OR REPLACE INTO t_%s VALUES(?1%s)", name, places);
  of[t].put = prepare(sql);
  sprintf(sql, "INSERT OR IGNORE INTO t_%s VALUES(?1%s)", name, places);
  of[t].insert = prepare(sql);
  sprintf(sql, "DELETE FROM t_%s WHERE k = ?1", name);
  of[t].delete = prepare(sql);
  sprintf(sql, "SELECT k%s FROM t_%s WHERE k BETWEEN ?1 AND ?2 ORDER BY k LIMIT ?3", columns, name);
  of[t].scan = prepare(sql);
  for (int i = 1; i <= tables[t].columns; i++) {
    sprintf(sql, "UPDATE t_%s SET c%d = c%d + ?2 WHERE k = ?1", name, i, i);
    of[t].add[i - 1] = prepare(sql);
    sprintf(sql, "UPDATE t_%s SET c%d = c%d - ?2 WHERE k = ?1 AND c%d >= ?2", name, i, i, i);
    of[t].sub[i - 1] = prepare(sql);
  }
  int c = tables[t].indexed;
  if (!c) return;
  sprintf(sql, "CREATE INDEX i_%s ON t_%s(c%d)", name, name, c);
  check(sqlite3_exec(database, sql, NULL, NULL, NULL));
  sprintf(sql, "SELECT k%s FROM t_%s WHERE c%d BETWEEN ?1 AND ?2 ORDER BY c%d, k LIMIT ?3", columns, name, c, c);
  of[t].find = prepare(sql);
}

static void store_open(void) {
  check(sqlite3_open_v2(":memory:", &database, SQLITE_OPEN_READWRITE | SQLITE_OPEN_CREATE | SQLITE_OPEN_NOMUTEX, NULL));
  check(sqlite3_exec(database, "PRAGMA locking_mode = EXCLUSIVE; PRAGMA synchronous = OFF; PRAGMA temp_store = MEMORY", NULL, NULL, NULL));
  begin_stmt = prepare("BEGIN");
  commit_stmt = prepare("COMMIT");
  rollback_stmt = prepare("ROLLBACK");
  for (int t = 0; t < table_count; t++) open_table(t);
}

static void store_begin(int reads) {
  (void)reads;
  run(begin_stmt);
}

static void store_end(int commits) { run(commits ? commit_stmt : rollback_stmt); }

static int store_get(int table, uint64_t key, uint64_t *row) {
  sqlite3_stmt *s = of[table].get;
  bind(s, 1, key);
  int code = sqlite3_step(s);
  check(code);
  if (code == SQLITE_ROW)
    for (int i = 0; i < tables[table].columns; i++) row[i] = (uint64_t)sqlite3_column_int64(s, i + 1);
  check(sqlite3_reset(s));
  return code == SQLITE_ROW;
}

static void set_row(sqlite3_stmt *s, int table, uint64_t key, const uint64_t *row) {
  bind(s, 1, key);
  for (int i = 0; i < tables[table].columns; i++) bind(s, i + 2, row[i]);
  run(s);
}

static void store_put(int table, uint64_t key, const uint64_t *row) { set_row(of[table].put, table, key, row); }

static int store_insert(int table, uint64_t key, const uint64_t *row) {
  set_row(of[table].insert, table, key, row);
  return sqlite3_changes(database) > 0;
}

static int store_delete(int table, uint64_t key) {
  bind(of[table].delete, 1, key);
  run(of[table].delete);
  return sqlite3_changes(database) > 0;
}

static const char *store_change(const Command *c) {
  uint64_t row[COLUMNS];
  sqlite3_stmt *s = (c->verb == ADD ? of[c->table].add : of[c->table].sub)[c->column - 1];
  bind(s, 1, c->key);
  bind(s, 2, c->most);
  run(s);
  if (sqlite3_changes(database) > 0) return NULL;
  return store_get(c->table, c->key, row) ? "short" : "missing";
}

static void print_rows(sqlite3_stmt *s, int table, uint64_t low, uint64_t high, uint64_t most, const char *start) {
  uint64_t row[COLUMNS];
  int code;
  bind(s, 1, low), bind(s, 2, high), bind(s, 3, most);
  while ((code = sqlite3_step(s)) == SQLITE_ROW) {
    for (int i = 0; i < tables[table].columns; i++) row[i] = (uint64_t)sqlite3_column_int64(s, i + 1);
    write_row(start, table, (uint64_t)sqlite3_column_int64(s, 0), row);
  }
  check(code);
  check(sqlite3_reset(s));
}

static void store_scan(int table, uint64_t low, uint64_t high, uint64_t most, const char *start) {
  print_rows(of[table].scan, table, low, high, most, start);
}

static void store_find(const Command *c) { print_rows(of[c->table].find, c->table, c->key, c->high, c->most, ": "); }

static void store_close(void) {} /* its memory goes with the process, as cicada's does */

static const char *store_version(void) { return sqlite3_libversion(); }
