/* What the files between C and the proved exports of crates/cicada_c share. */
#ifndef CICADA_BORDER_H
#define CICADA_BORDER_H

#include "cicada.h"

#include <stdbool.h>

/* ---- the exports, as crates/cicada_c declares them; where `noted` is given, it is written at CONFLICT alone */

typedef struct {
    void *at;
} handle;

typedef struct {
    uint64_t stamp;
    uint32_t record;
} conflict;

int32_t cicada_proved_open(uint32_t rows, uint32_t spare, void **out, size_t count, conflict *noted);
void cicada_proved_close(handle *it);
void cicada_proved_free(handle it);
uint32_t cicada_proved_opened(handle *it);
int32_t cicada_proved_begin(handle *it, uint64_t reading, conflict *noted);
int32_t cicada_proved_commit(handle *it, uint64_t *stamp, conflict *noted);
int32_t cicada_proved_abort(handle *it, conflict *noted);
int32_t cicada_proved_snapshot(handle *it, conflict *noted);
int32_t cicada_proved_finish(handle *it, uint64_t *stamp, conflict *noted);
int32_t cicada_proved_get(handle *it, uint32_t table, uint64_t key, uint64_t *row, conflict *noted);
int32_t cicada_proved_put(handle *it, uint32_t table, uint64_t key, const uint64_t *row, conflict *noted);
int32_t cicada_proved_remove(handle *it, uint32_t table, uint64_t key, conflict *noted);
int32_t cicada_proved_list(handle *it, uint32_t table, uint64_t low, uint64_t high, uint32_t limit, uint64_t *keys, size_t key_count,
                           uint64_t (*rows)[CICADA_COLUMNS], size_t row_count, size_t *count, conflict *noted);
int32_t cicada_proved_find(handle *it, uint32_t table, uint32_t column, uint64_t low, uint64_t high, uint32_t limit, uint64_t *keys, size_t key_count,
                           uint64_t (*rows)[CICADA_COLUMNS], size_t row_count, size_t *count, conflict *noted);
int32_t cicada_proved_declare_index(handle *it, uint32_t table, uint32_t column, conflict *noted);
int32_t cicada_proved_collect(handle *it, uint32_t *places, conflict *noted);
int32_t cicada_proved_hear(handle *it, uint64_t stamp, conflict *noted);
int32_t cicada_proved_tick(handle *it, uint64_t reading, uint64_t *stamp, conflict *noted);
int32_t cicada_proved_counts(handle *it, cicada_counts *counts, conflict *noted);

static inline handle *handle_of(cicada_connection *it) { return (handle *)&it->at; }

/* ---- who is in a connection */

/* No call is in it; one is; it rests in a pool. */
enum { FREE = 0, ENTERED = 1, RESTING = 2 };

/* OK: this call alone is in the connection, which may be closed, and leaves it by `release`. */
static inline int32_t claim(cicada_connection *it) {
    uint32_t word = FREE;
    if (it == NULL) return CICADA_RANGE;
    if (it->home != it) return CICADA_MISUSED;
    if (__atomic_compare_exchange_n(&it->word, &word, ENTERED, false, __ATOMIC_SEQ_CST, __ATOMIC_SEQ_CST)) return CICADA_OK;
    return word == RESTING ? CICADA_MISUSED : CICADA_BUSY;
}

static inline void release(cicada_connection *it) { __atomic_store_n(&it->word, FREE, __ATOMIC_SEQ_CST); }

/* Closes a connection that nobody else is in, if it is open. */
static inline void close_claimed(cicada_connection *it) {
    if (it->at == NULL) return;
    cicada_proved_close(handle_of(it));
    cicada_proved_free(*handle_of(it));
    __atomic_store_n(&it->at, NULL, __ATOMIC_SEQ_CST);
}

#endif
