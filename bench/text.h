/* The frame of the two rivals in C: reads a text of Cicada's language from standard input, runs its blocks one after another on a store,
 * and writes a report of the same form as the program's, which `cicada --check` accepts. A store is the functions declared first.
 *
 * What it does as cicada does: the same answers, the same refusals, a refused block changes nothing. What it doesn't: it trusts its
 * text (no line is refused), tests no sum for 64 bits (numbers have to stay below 2^62), runs on one thread, and draws stamps 1, 2, 3. */
#include <stdint.h>
#include <stdio.h>
#include <stdlib.h>
#include <string.h>

enum { COLUMNS = 6, TABLES = 8, BLOCKS = 16384, ROWS = 16384, COMMANDS = 1 << 20 };

typedef enum { GET, PUT, INS, DEL, ADD, SUB, SCAN, FIND } Verb;

typedef struct {
  char name[17];
  int columns;
  int indexed; /* which column has an index, from 1; 0: none */
} Table;

typedef struct {
  Verb verb;
  int table, column;     /* the column from 1 */
  uint64_t key, high;    /* of a scan and a find, the bounds */
  uint64_t most;         /* of a scan and a find, how many rows; of add and sub, how much */
  uint64_t row[COLUMNS]; /* of put and ins */
} Command;

typedef struct {
  int lane, number, snap, first, past;
} Block;

static Table tables[TABLES];
static Command rows[ROWS];
static Block blocks[BLOCKS];
static Command *commands;
static int table_count, row_count, block_count, command_count;

/* What a store has to offer. Rows have as many values as the table has columns. */
static void store_open(void);
static void store_begin(int reads);
static void store_end(int commits);
static int store_get(int table, uint64_t key, uint64_t *row);
static void store_put(int table, uint64_t key, const uint64_t *row);
static int store_insert(int table, uint64_t key, const uint64_t *row); /* 0: the key is there */
static int store_delete(int table, uint64_t key);                      /* 0: it is not there */
static const char *store_change(const Command *c);                     /* of add and sub; NULL, or why not */
static void store_scan(int table, uint64_t low, uint64_t high, uint64_t most, const char *start);
static void store_find(const Command *c);
static void store_close(void);
static const char *store_version(void);

/* The report. */
static char *out;
static size_t out_length, out_room;

static void write_text(const char *text, size_t length) {
  if (out_length + length > out_room) {
    out_room = 2 * out_room + length + 4096;
    out = realloc(out, out_room);
    if (!out) exit(6);
  }
  memcpy(out + out_length, text, length);
  out_length += length;
}

static void write_number(uint64_t number) {
  char digits[20];
  int at = 20;
  do digits[--at] = '0' + number % 10; while (number /= 10);
  write_text(digits + at, 20 - at);
}

static void write_row(const char *start, int table, uint64_t key, const uint64_t *row) {
  write_text(start, strlen(start));
  write_number(key);
  for (int i = 0; i < tables[table].columns; i++) {
    write_text(" ", 1);
    write_number(row[i]);
  }
  write_text("\n", 1);
}

static void fail(const char *what) {
  fprintf(stderr, "%s\n", what);
  exit(1);
}

/* Reading. */
static int table_of(const char *name) {
  for (int i = 0; i < table_count; i++)
    if (!strcmp(tables[i].name, name)) return i;
  fail("no such table");
  return 0;
}

static uint64_t number_of(const char *word) { return word ? strtoull(word, NULL, 10) : 0; }

static void read_change(Command *c, char **word, int second) {
  static const char *verbs[] = {"get", "put", "ins", "del", "add", "sub", "scan", "find"};
  int verb = 0;
  while (verb < 8 && strcmp(word[0], verbs[verb])) verb++;
  c->verb = verb == 8 ? PUT : verb; /* a row line stands for a put */
  c->table = table_of(word[1]);
  c->column = 1;
  if (verb == FIND) {
    c->column = number_of(word[2]);
    c->key = number_of(word[3]), c->high = number_of(word[4]), c->most = number_of(word[5]);
    return;
  }
  c->key = number_of(word[2]);
  if (verb == SCAN) c->high = number_of(word[3]), c->most = number_of(word[4]);
  if (second && (verb == GET || verb == ADD || verb == SUB)) c->column = number_of(word[3]);
  if (verb == ADD || verb == SUB) c->most = number_of(word[second ? 4 : 3]);
  if (c->verb == PUT || c->verb == INS)
    for (int i = 0; i < tables[c->table].columns; i++) c->row[i] = number_of(word[3 + i]);
}

static void read_line(char **word, int count, int second) {
  static int lane, number;
  Block *last = &blocks[block_count - 1];
  if (!strcmp(word[0], "table")) {
    strncpy(tables[table_count].name, word[1], 16);
    tables[table_count++].columns = count > 2 ? number_of(word[2]) : 1;
  } else if (!strcmp(word[0], "index")) {
    tables[table_of(word[1])].indexed = number_of(word[2]);
  } else if (!strcmp(word[0], "row")) {
    read_change(&rows[row_count++], word, second);
  } else if (!strcmp(word[0], "lane")) {
    lane++, number = 0;
  } else if (!strcmp(word[0], "txn") || !strcmp(word[0], "snap")) {
    blocks[block_count++] = (Block){lane, ++number, word[0][0] == 's', command_count, 0};
  } else if (!strcmp(word[0], "end")) {
    last->past = command_count;
  } else if (strcmp(word[0], "cicada") && strcmp(word[0], "done")) {
    read_change(&commands[command_count++], word, second);
  }
}

static void read_input(void) {
  size_t length = 0, room = 1 << 23;
  char *text = malloc(room + 1);
  commands = calloc(COMMANDS, sizeof *commands);
  if (!text || !commands) exit(6);
  for (size_t got; (got = fread(text + length, 1, room - length, stdin)) > 0;) length += got;
  text[length] = 0;
  int second = !strncmp(text, "cicada 2\n", 9);
  for (char *line = text, *past; *line; line = past + 1) {
    past = strchr(line, '\n');
    *past = 0;
    char *word[10] = {0};
    int count = 0;
    for (char *at = line; at && count < 9; count++) {
      word[count] = at;
      at = strchr(at, ' ');
      if (at) *at++ = 0;
    }
    read_line(word, count, second);
  }
  free(text);
}

/* Runs a command; NULL, or why the block is refused. */
static const char *run_command(const Command *c) {
  uint64_t row[COLUMNS];
  switch (c->verb) {
    case GET:
      if (store_get(c->table, c->key, row)) {
        write_text("= ", 2);
        write_number(row[c->column - 1]);
        write_text("\n", 1);
      } else
        write_text("= none\n", 7);
      return NULL;
    case PUT: store_put(c->table, c->key, c->row); return NULL;
    case INS: return store_insert(c->table, c->key, c->row) ? NULL : "exists";
    case DEL: return store_delete(c->table, c->key) ? NULL : "missing";
    case ADD:
    case SUB: return store_change(c);
    case SCAN: store_scan(c->table, c->key, c->high, c->most, ": "); return NULL;
    case FIND: store_find(c); return NULL;
  }
  return NULL;
}

/* Runs a block in one transaction, and writes its head and its answers. */
static void run_block(const Block *b) {
  static uint64_t stamp;
  char head[64];
  size_t start = out_length;
  stamp += !b->snap;
  write_text(head, sprintf(head, "%llu %d.%d %s\n", (unsigned long long)stamp, b->lane, b->number, b->snap ? "snap" : "ok"));
  store_begin(b->snap);
  for (int i = b->first; i < b->past; i++) {
    const char *cause = run_command(&commands[i]);
    if (!cause) continue;
    store_end(0);
    out_length = start;
    write_text(head, sprintf(head, "%llu %d.%d no %d %s\n", (unsigned long long)stamp, b->lane, b->number, i - b->first + 1, cause));
    return;
  }
  store_end(1);
}

int main(int words, char **word) {
  if (words > 1 && !strcmp(word[1], "--version")) return puts(store_version()) < 0;
  read_input();
  store_open();
  store_begin(0);
  for (int i = 0; i < row_count; i++) store_put(rows[i].table, rows[i].key, rows[i].row);
  store_end(1);
  for (int i = 0; i < block_count; i++) run_block(&blocks[i]);
  store_begin(1);
  for (int i = 0; i < table_count; i++) {
    char line[32];
    write_text(line, sprintf(line, "table %.16s\n", tables[i].name));
    store_scan(i, 0, INT64_MAX, UINT64_MAX >> 1, "");
  }
  store_end(1);
  write_text("done\n", 5);
  if (fwrite(out, 1, out_length, stdout) != out_length || fflush(stdout)) return 5;
  store_close();
  return 0;
}
