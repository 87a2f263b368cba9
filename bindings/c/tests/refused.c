/* Each request for memory refused in turn, once and from there on: the call that made it says so and leaves all as the header says; what is done again comes
 * through; and all memory is given back. Linked with the library's archive, since it has malloc of its own. */
#define _GNU_SOURCE
#include <cicada.h>

#include "cases.h"
#include <dlfcn.h>
#include <errno.h>
#include <stdbool.h>
#include <stdlib.h>
#include <string.h>

/* ---- malloc, of which one request, or all from one on, are refused while `watched` */

extern void *__libc_malloc(size_t), *__libc_realloc(void *, size_t);
extern void __libc_free(void *);

static bool watched, from_there_on;
static long requests, refused_at, refused, living;

static bool refuse(void) {
    if (!watched) return false;
    requests++;
    if (refused_at == 0 || (from_there_on ? requests < refused_at : requests != refused_at)) return false;
    refused++;
    errno = ENOMEM;
    return true;
}

void *malloc(size_t bytes) {
    if (refuse()) return NULL;
    void *made = __libc_malloc(bytes);
    if (watched && made != NULL) living++;
    return made;
}

void *realloc(void *old, size_t bytes) {
    if (refuse()) return NULL;
    void *made = __libc_realloc(old, bytes);
    if (watched && made != NULL && old == NULL) living++;
    return made;
}

void free(void *old) {
    if (watched && old != NULL) living--;
    __libc_free(old);
}

/* ---- a run of all calls that take memory, which does again whatever is refused */

enum { ROWS = 40, MOST_TRIES = 3 };

static cicada_connection two[2];
static uint64_t stamp;

/* One transaction, done again where memory is wanting. The first status that is another one. */
static int32_t transact(cicada_connection *it, int32_t (*body)(cicada_connection *, uint64_t), uint64_t part) {
    int32_t status = CICADA_OK;
    for (int i = 0; i < MOST_TRIES; i++) {
        uint32_t opened;
        status = cicada_begin(it, 0);
        if (status == CICADA_OK) {
            status = body(it, part);
            if (status == CICADA_OK) return cicada_commit(it, &stamp, NULL);
            cicada_opened(it, &opened);
            holds(opened == CICADA_SPOILED || status == CICADA_RANGE, "request %ld: %d leaves %u open", refused_at, status, opened);
            uint64_t at;
            holds(cicada_commit(it, &at, NULL) == CICADA_MISUSED, "request %ld: what is half done does not commit", refused_at);
            holds(cicada_abort(it) == CICADA_OK, "request %ld: abort", refused_at);
        } else {
            cicada_opened(it, &opened);
            holds(opened == CICADA_NOTHING, "request %ld: begin leaves %u open", refused_at, opened);
        }
        if (status != CICADA_NO_MEMORY) return status;
    }
    return status;
}

static int32_t puts_rows(cicada_connection *it, uint64_t part) {
    for (uint64_t key = 0; key < ROWS; key++) {
        uint64_t row[CICADA_COLUMNS] = {key, part};
        int32_t status = cicada_put(it, 0, part * ROWS + key, row);
        if (status != CICADA_OK) return status;
    }
    return CICADA_OK;
}

static int32_t changes_rows(cicada_connection *it, uint64_t part) {
    cicada_operation batch[ROWS];
    size_t done;
    memset(batch, 0, sizeof batch);
    for (uint64_t key = 0; key < ROWS; key++) batch[key] = (cicada_operation){.kind = CICADA_ADD, .key = part * ROWS + key, .row = {0, 1}};
    int32_t status = cicada_apply(it, batch, ROWS, &done);
    return status != CICADA_OK ? status : cicada_remove(it, 0, part * ROWS);
}

static int32_t lists_rows(cicada_connection *it, uint64_t part) {
    uint64_t keys[ROWS], rows[ROWS][CICADA_COLUMNS];
    size_t listed = 0, there = 0;
    (void)part;
    int32_t status = cicada_list(it, 0, 0, UINT64_MAX, ROWS, keys, rows, &listed, &there);
    if (status != CICADA_OK) return status;
    holds(listed == ROWS && there == 2 * ROWS - 1, "request %ld: %zu of %zu rows", refused_at, listed, there);
    return CICADA_OK;
}

/* A snapshot goes on where memory is wanting: what is open stays. */
static int32_t looks(cicada_connection *it) {
    int32_t status = cicada_snapshot(it);
    if (status != CICADA_OK) return status;
    for (int i = 0; i < MOST_TRIES; i++) {
        uint32_t opened;
        status = lists_rows(it, 0);
        cicada_opened(it, &opened);
        holds(opened == CICADA_SNAPSHOT, "request %ld: %d in a snapshot leaves %u open", refused_at, status, opened);
        if (status != CICADA_NO_MEMORY) break;
    }
    uint64_t at;
    holds(cicada_finish(it, &at) == CICADA_OK, "request %ld: finish", refused_at);
    return status;
}

/* The first status that is neither OK nor one that another try mended. */
static int32_t whole(void) {
    int32_t status = CICADA_OK;
    for (int i = 0; i < MOST_TRIES; i++) {
        memset(two, 0, sizeof two);
        status = cicada_open(1000, 500, two, 2);
        if (status == CICADA_OK) break;
        holds(two[0].at == NULL && two[1].at == NULL && living == 0, "request %ld: open leaves %ld blocks", refused_at, living);
        if (status != CICADA_NO_MEMORY) return status;
    }
    if (status != CICADA_OK) return status;
    if ((status = transact(&two[0], puts_rows, 0)) || (status = transact(&two[0], puts_rows, 1)) || (status = transact(&two[0], changes_rows, 1)))
        return status;
    if ((status = cicada_hear(&two[1], stamp)) || (status = transact(&two[1], lists_rows, 0))) return status;
    for (int i = 0; i < 2; i++)
        if ((status = cicada_tick(&two[i], 1000, NULL)) || (status = cicada_collect(&two[i], NULL))) return status;
    for (int i = 0; i < 2; i++)
        if ((status = cicada_collect(&two[i], NULL)) || (status = looks(&two[i]))) return status;
    return CICADA_OK;
}

static int32_t run(long at, bool on) {
    requests = refused = living = 0, refused_at = at, from_there_on = on;
    memset(two, 0, sizeof two);
    watched = true;
    int32_t status = whole();
    for (int i = 0; i < 2; i++)
        if (two[i].home != NULL) holds(cicada_close(&two[i]) == CICADA_OK, "request %ld: close", at);
    watched = false;
    holds(living == 0, "request %ld: %ld blocks are left", at, living);
    return status;
}

int main(void) {
    static char buffer[1 << 16];
    setvbuf(stdout, buffer, _IOFBF, sizeof buffer);
    holds(run(0, false) == CICADA_OK, "nothing is refused");
    long all = requests;
    fprintf(stderr, "%ld requests\n", all);
    holds(all > 10, "%ld requests", all);
    for (long at = 1; at <= all; at++) {
        int32_t status = run(at, false);
        holds(refused == 1 && status == CICADA_OK, "request %ld refused: %d", at, status);
    }
    for (long at = 1; at <= all; at++) {
        int32_t status = run(at, true);
        holds(refused > 0 && status == CICADA_NO_MEMORY, "all from request %ld on refused: %d", at, status);
    }
    return counts();
}
