/* An order book: orders by price and time, a page of the best ones, and a match of buyers with sellers, each in one transaction.
 *
 *   cc -O2 order_book.c $(pkg-config --cflags --libs cicada) -o order_book && ./order_book
 */
#include <cicada.h>

#include <stdio.h>
#include <stdlib.h>

/* Tables: sell orders by price and time; buy orders by falling price and time; what each trader holds. */
enum { SELLS = 0, BUYS = 1, HOLDINGS = 2 };
/* Columns of an order, and of what a trader holds. */
enum { TRADER = 0, PRICE = 1, LEFT = 2 };
enum { GOODS = 0, MONEY = 1 };
enum { PAGE = 4, TRADERS = 10, MOST_PRICE = 1000000 };

static void need(int32_t status, const char *what) {
    if (status == CICADA_OK) return;
    fprintf(stderr, "%s: %s\n", what, cicada_status_text(status));
    exit(1);
}

/* The key orders by price and then by time; that of a buyer by falling price. */
static uint64_t key_of(int table, uint64_t price, uint64_t time) {
    uint64_t first = table == SELLS ? price : MOST_PRICE - price;
    return first << 40 | time;
}

static void place(cicada_connection *it, int table, uint64_t trader, uint64_t price, uint64_t left, uint64_t time) {
    uint64_t row[CICADA_COLUMNS] = {trader, price, left}, stamp;
    need(cicada_begin(it, 0), "begin");
    need(cicada_put(it, (uint32_t)table, key_of(table, price, time), row), "put");
    need(cicada_commit(it, &stamp, NULL), "commit");
}

/* The best order of a table, if there is one. */
static int best(cicada_connection *it, int table, uint64_t *key, uint64_t row[1][CICADA_COLUMNS]) {
    size_t listed;
    need(cicada_list(it, (uint32_t)table, 0, UINT64_MAX, 1, key, row, &listed, NULL), "list");
    return listed == 1;
}

/* What is left of an order: less, or no row any more. */
static void fill(cicada_connection *it, int table, uint64_t key, uint64_t row[CICADA_COLUMNS], uint64_t amount) {
    row[LEFT] -= amount;
    if (row[LEFT] == 0)
        need(cicada_remove(it, (uint32_t)table, key), "remove");
    else
        need(cicada_put(it, (uint32_t)table, key, row), "put");
}

/* Goods and money change hands: four holdings in one batch. */
static void deliver(cicada_connection *it, uint64_t seller, uint64_t buyer, uint64_t amount, uint64_t money) {
    cicada_operation batch[4] = {
        {.kind = CICADA_SUBTRACT, .table = HOLDINGS, .key = seller, .row = {[GOODS] = amount}},
        {.kind = CICADA_ADD, .table = HOLDINGS, .key = seller, .row = {[MONEY] = money}},
        {.kind = CICADA_SUBTRACT, .table = HOLDINGS, .key = buyer, .row = {[MONEY] = money}},
        {.kind = CICADA_ADD, .table = HOLDINGS, .key = buyer, .row = {[GOODS] = amount}},
    };
    size_t done;
    need(cicada_apply(it, batch, 4, &done), "deliver");
    if (done != 4) need(CICADA_ABSENT, "deliver");
}

/* Matches the best seller with the best buyer, in one transaction; 0 where they do not meet. */
static int match(cicada_connection *it) {
    uint64_t sell_key, buy_key, sell[1][CICADA_COLUMNS], buy[1][CICADA_COLUMNS], stamp;
    need(cicada_begin(it, 0), "begin");
    if (!best(it, SELLS, &sell_key, sell) || !best(it, BUYS, &buy_key, buy) || sell[0][PRICE] > buy[0][PRICE]) {
        need(cicada_abort(it), "abort");
        return 0;
    }
    uint64_t amount = sell[0][LEFT] < buy[0][LEFT] ? sell[0][LEFT] : buy[0][LEFT];
    deliver(it, sell[0][TRADER], buy[0][TRADER], amount, amount * sell[0][PRICE]);
    fill(it, SELLS, sell_key, sell[0], amount);
    fill(it, BUYS, buy_key, buy[0], amount);
    need(cicada_commit(it, &stamp, NULL), "commit");
    return 1;
}

/* All orders of a table, a page at a time, in one snapshot: each page begins behind the last key of the one before. */
static void print_pages(cicada_connection *it, int table, const char *name) {
    uint64_t keys[PAGE], rows[PAGE][CICADA_COLUMNS], low = 0, stamp;
    size_t listed, there;
    need(cicada_tick(it, 0, NULL), "tick");
    need(cicada_snapshot(it), "snapshot");
    need(cicada_list(it, (uint32_t)table, 0, UINT64_MAX, 0, NULL, NULL, &listed, &there), "count");
    printf("%s: %zu\n", name, there);
    do {
        need(cicada_list(it, (uint32_t)table, low, UINT64_MAX, PAGE, keys, rows, &listed, NULL), "list");
        for (size_t i = 0; i < listed; i++)
            printf("  trader %llu, price %llu, left %llu\n", (unsigned long long)rows[i][TRADER], (unsigned long long)rows[i][PRICE],
                   (unsigned long long)rows[i][LEFT]);
        if (listed > 0) low = keys[listed - 1] + 1;
    } while (listed == PAGE);
    need(cicada_finish(it, &stamp), "finish");
}

int main(void) {
    cicada_connection it[1];
    uint64_t stamp, goods = 0, money = 0;
    need(cicada_open(2000, 0, it, 1), "open");
    need(cicada_begin(it, 0), "begin");
    for (uint64_t trader = 0; trader < TRADERS; trader++) {
        uint64_t row[CICADA_COLUMNS] = {[GOODS] = 100, [MONEY] = 100000};
        need(cicada_put(it, HOLDINGS, trader, row), "put");
    }
    need(cicada_commit(it, &stamp, NULL), "commit");
    for (uint64_t i = 0; i < 10; i++) {
        place(it, SELLS, i, 100 + i, 5 + i, i);
        place(it, BUYS, TRADERS - 1 - i, 98 + i, 5, i);
    }
    int matches = 0;
    while (match(it)) matches++;
    printf("%d matches\n", matches);
    print_pages(it, SELLS, "sellers");
    print_pages(it, BUYS, "buyers");
    need(cicada_snapshot(it), "snapshot");
    for (uint64_t trader = 0; trader < TRADERS; trader++) {
        uint64_t row[CICADA_COLUMNS];
        need(cicada_get(it, HOLDINGS, trader, row), "get");
        goods += row[GOODS], money += row[MONEY];
    }
    need(cicada_finish(it, &stamp), "finish");
    printf("goods %llu, money %llu\n", (unsigned long long)goods, (unsigned long long)money);
    need(cicada_close(it), "close");
    return goods != 100 * TRADERS || money != 100000 * TRADERS;
}
