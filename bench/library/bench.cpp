// The same transactions over the library, LMDB, SQLite in memory, and a map behind a lock; those whose headers are missing are left out.
//
//   bench STORE WORKLOAD THREADS TRANSACTIONS
//
// Stores: library, lmdb, sqlite, map. Workloads: transfers (two rows read and written), adds (16 rows), reads (four rows read, in 95 of 100; else a transfer),
// scans (100 rows in the order of their keys), churn (two rows, each removed if it is there and else put); with -small of 1,024 rows, and else of 16,384. One
// line is printed: how many a second, how often a try was refused, and a sum of what the first thread read. At one thread that is the same for all stores, but
// for reads, since a snapshot of the library may be older than the last transfer.
#include <cicada.h>

#include <sched.h>
#include <time.h>
#include <unistd.h>

#include <algorithm>
#include <array>
#include <atomic>
#include <cstdio>
#include <cstdlib>
#include <cstring>
#include <map>
#include <mutex>
#include <string>
#include <thread>
#include <vector>

#if __has_include(<lmdb.h>)
#include <lmdb.h>
#define HAS_LMDB
#endif
#if __has_include(<sqlite3.h>)
#include <sqlite3.h>
#define HAS_SQLITE
#endif

namespace {

using Row = std::array<uint64_t, CICADA_COLUMNS>;

uint64_t now() {
    timespec t;
    clock_gettime(CLOCK_MONOTONIC, &t);
    return uint64_t(t.tv_sec) * 1000000000u + uint64_t(t.tv_nsec);
}

[[noreturn]] void die(const char *what, int number) {
    std::fprintf(stderr, "%s: %d\n", what, number);
    _exit(3);
}

void need(const char *what, int status) {
    if (status != 0) die(what, status);
}

size_t threads;
uint64_t rows, keys;

// What a call answers that reads or writes a row.
enum Answer { done, absent, again };

// ---- the library: a transaction that only reads is a snapshot

struct Library {
    static inline cicada_connection all[CICADA_MOST_CONNECTIONS];
    cicada_connection *it;
    bool reads = false;
    int32_t fault = CICADA_OK;
    uint64_t refused = 0;
    unsigned since = 0;

    static void open() { need("open", cicada_open(rows <= 1024 ? 16384 : 100000, 0, all, threads)); }
    explicit Library(size_t i) : it(&all[i]) {}

    Answer of(int32_t status) {
        if (status <= CICADA_ABSENT) return status == CICADA_OK ? done : absent;
        fault = status;
        return again;
    }
    void begin(bool only_reads) {
        reads = only_reads, fault = CICADA_OK;
        need("begin", reads ? cicada_snapshot(it) : cicada_begin(it, now()));
    }
    Answer get(uint64_t key, Row &row) { return of(cicada_get(it, 0, key, row.data())); }
    Answer put(uint64_t key, const Row &row) { return of(cicada_put(it, 0, key, row.data())); }
    Answer remove(uint64_t key) { return of(cicada_remove(it, 0, key)); }
    Answer scan(uint64_t low, size_t count, uint64_t &sum) {
        uint64_t found[128], there[128][CICADA_COLUMNS];
        size_t listed = 0;
        Answer answer = of(cicada_list(it, 0, low, UINT64_MAX, count, found, there, &listed, nullptr));
        for (size_t i = 0; i < listed; i++) sum += found[i] * 31 + there[i][1];
        return answer;
    }
    // Whether it is through; else it is to be begun again.
    bool end(int turn) {
        uint64_t stamp = 0;
        if (reads) return need("finish", cicada_finish(it, &stamp)), true;
        int32_t status = fault;
        if (status == CICADA_OK) {
            status = cicada_commit(it, &stamp, nullptr);
        } else {
            if (status == CICADA_CONFLICT) cicada_conflict(it, &stamp, nullptr);
            need("abort", cicada_abort(it));
        }
        if (status == CICADA_OK) {
            if (++since % 64 == 0) cicada_collect(it, nullptr);
            return true;
        }
        if ((status != CICADA_CONFLICT && status != CICADA_PLACES_OUT) || turn > 200000) die(cicada_status_text(status), turn);
        refused++;
        cicada_collect(it, nullptr);
        if (status == CICADA_CONFLICT) cicada_hear(it, stamp);
        for (int i = 0; i < 1 << std::min(turn, 4); i++) sched_yield();
        return false;
    }
    // Brings the others on, while one thread alone is at work.
    static void filled() {
        for (size_t i = 0; i < threads; i++) cicada_tick(&all[i], now(), nullptr);
        for (size_t i = 0; i < threads; i++) cicada_collect(&all[i], nullptr);
    }
    // (a connection that rests would hold the others back)
    void rest() { cicada_close(it); }
    static void close() {}
};

// ---- LMDB, in memory and without syncs

#ifdef HAS_LMDB
struct Lmdb {
    static inline MDB_env *env;
    static inline MDB_dbi dbi;
    static inline std::string path;
    MDB_txn *only = nullptr, *txn = nullptr;
    MDB_cursor *cursor = nullptr;
    bool reads = false;
    uint64_t refused = 0;

    static void open() {
        path = "/dev/shm/cicada-bench-" + std::to_string(getpid());
        need("create", mdb_env_create(&env));
        need("size", mdb_env_set_mapsize(env, 256u << 20));
        need("open", mdb_env_open(env, path.c_str(), MDB_NOSUBDIR | MDB_NOSYNC | MDB_WRITEMAP | MDB_NOTLS, 0600));
        MDB_txn *first;
        need("begin", mdb_txn_begin(env, nullptr, 0, &first));
        need("table", mdb_dbi_open(first, nullptr, MDB_INTEGERKEY | MDB_CREATE, &dbi));
        need("commit", mdb_txn_commit(first));
    }
    explicit Lmdb(size_t) {
        need("begin", mdb_txn_begin(env, nullptr, MDB_RDONLY, &only));
        need("cursor", mdb_cursor_open(only, dbi, &cursor));
        mdb_txn_reset(only);
    }
    void begin(bool only_reads) {
        reads = only_reads;
        if (reads) need("renew", mdb_txn_renew(txn = only));
        else need("begin", mdb_txn_begin(env, nullptr, 0, &txn));
    }
    Answer get(uint64_t key, Row &row) {
        MDB_val at{sizeof key, &key}, it;
        int status = mdb_get(txn, dbi, &at, &it);
        if (status == MDB_NOTFOUND) return absent;
        need("get", status);
        std::memcpy(row.data(), it.mv_data, sizeof row);
        return done;
    }
    Answer put(uint64_t key, const Row &row) {
        MDB_val at{sizeof key, &key}, it{sizeof row, const_cast<uint64_t *>(row.data())};
        return need("put", mdb_put(txn, dbi, &at, &it, 0)), done;
    }
    Answer remove(uint64_t key) {
        MDB_val at{sizeof key, &key};
        int status = mdb_del(txn, dbi, &at, nullptr);
        if (status == MDB_NOTFOUND) return absent;
        return need("remove", status), done;
    }
    Answer scan(uint64_t low, size_t count, uint64_t &sum) {
        need("cursor", mdb_cursor_renew(txn, cursor));
        MDB_val at{sizeof low, &low}, it;
        int status = mdb_cursor_get(cursor, &at, &it, MDB_SET_RANGE);
        for (size_t i = 0; i < count && status == 0; i++) {
            uint64_t key;
            Row row;
            std::memcpy(&key, at.mv_data, sizeof key);
            std::memcpy(row.data(), it.mv_data, sizeof row);
            sum += key * 31 + row[1];
            if (i + 1 < count) status = mdb_cursor_get(cursor, &at, &it, MDB_NEXT);
        }
        return done;
    }
    bool end(int) {
        if (reads) mdb_txn_reset(txn);
        else need("commit", mdb_txn_commit(txn));
        return true;
    }
    static void filled() {}
    void rest() { mdb_cursor_close(cursor), mdb_txn_abort(only); }
    static void close() { mdb_env_close(env), unlink(path.c_str()), unlink((path + "-lock").c_str()); }
};
#endif

// ---- SQLite in memory, behind a lock

std::mutex big;

#ifdef HAS_SQLITE
struct Sqlite {
    static inline sqlite3 *db;
    static inline sqlite3_stmt *ask[6];
    uint64_t refused = 0;

    static void open() {
        static const char *const texts[] = {"BEGIN",
                                            "COMMIT",
                                            "SELECT v FROM r WHERE k=?",
                                            "REPLACE INTO r VALUES(?,?)",
                                            "DELETE FROM r WHERE k=?",
                                            "SELECT k,v FROM r WHERE k>=? ORDER BY k LIMIT ?"};
        need("open", sqlite3_open_v2(":memory:", &db, SQLITE_OPEN_READWRITE | SQLITE_OPEN_CREATE | SQLITE_OPEN_NOMUTEX, nullptr));
        need("table",
             sqlite3_exec(db, "PRAGMA synchronous=OFF; PRAGMA temp_store=MEMORY; CREATE TABLE r(k INTEGER PRIMARY KEY, v BLOB)", nullptr, nullptr, nullptr));
        for (int i = 0; i < 6; i++) need(texts[i], sqlite3_prepare_v3(db, texts[i], -1, SQLITE_PREPARE_PERSISTENT, &ask[i], nullptr));
    }
    explicit Sqlite(size_t) {}
    static void step(int i) {
        if (sqlite3_step(ask[i]) != SQLITE_DONE) die(sqlite3_errmsg(db), i);
        sqlite3_reset(ask[i]);
    }
    void begin(bool) { big.lock(), step(0); }
    Answer get(uint64_t key, Row &row) {
        sqlite3_bind_int64(ask[2], 1, sqlite3_int64(key));
        bool there = sqlite3_step(ask[2]) == SQLITE_ROW;
        if (there) std::memcpy(row.data(), sqlite3_column_blob(ask[2], 0), sizeof row);
        sqlite3_reset(ask[2]);
        return there ? done : absent;
    }
    Answer put(uint64_t key, const Row &row) {
        sqlite3_bind_int64(ask[3], 1, sqlite3_int64(key));
        sqlite3_bind_blob(ask[3], 2, row.data(), sizeof row, SQLITE_STATIC);
        return step(3), done;
    }
    Answer remove(uint64_t key) {
        sqlite3_bind_int64(ask[4], 1, sqlite3_int64(key));
        return step(4), done;
    }
    Answer scan(uint64_t low, size_t count, uint64_t &sum) {
        sqlite3_bind_int64(ask[5], 1, sqlite3_int64(low));
        sqlite3_bind_int64(ask[5], 2, sqlite3_int64(count));
        while (sqlite3_step(ask[5]) == SQLITE_ROW) {
            Row row;
            std::memcpy(row.data(), sqlite3_column_blob(ask[5], 1), sizeof row);
            sum += uint64_t(sqlite3_column_int64(ask[5], 0)) * 31 + row[1];
        }
        sqlite3_reset(ask[5]);
        return done;
    }
    bool end(int) { return step(1), big.unlock(), true; }
    static void filled() {}
    void rest() {}
    static void close() {}
};
#endif

// ---- a map behind a lock

struct Map {
    static inline std::map<uint64_t, Row> all;
    uint64_t refused = 0;

    static void open() {}
    explicit Map(size_t) {}
    void begin(bool) { big.lock(); }
    Answer get(uint64_t key, Row &row) {
        auto it = all.find(key);
        if (it == all.end()) return absent;
        row = it->second;
        return done;
    }
    Answer put(uint64_t key, const Row &row) { return all[key] = row, done; }
    Answer remove(uint64_t key) { return all.erase(key) != 0 ? done : absent; }
    Answer scan(uint64_t low, size_t count, uint64_t &sum) {
        for (auto it = all.lower_bound(low); it != all.end() && count > 0; ++it, count--) sum += it->first * 31 + it->second[1];
        return done;
    }
    bool end(int) { return big.unlock(), true; }
    static void filled() {}
    void rest() {}
    static void close() {}
};

// ---- the workloads

struct Chance {
    uint64_t x;
    uint64_t below(uint64_t n) {
        x ^= x << 13, x ^= x >> 7, x ^= x << 17;
        return uint64_t((static_cast<unsigned __int128>(x * 0x2545F4914F6CDD1Du) * n) >> 64);
    }
};

// One transaction: which rows, and by how much.
struct Task {
    char kind;
    size_t count = 0;
    uint64_t key[16], amount = 0;

    void draw(Chance &chance, size_t n, uint64_t from) {
        for (count = 0; count < n;) {
            key[count] = chance.below(from);
            if (std::find(key, key + count, key[count]) == key + count) count++;
        }
    }
    Task(char workload, Chance &chance) : kind(workload) {
        if (kind == 'r' && chance.below(100) >= 95) kind = 't';
        switch (kind) {
        case 't': draw(chance, 2, rows), amount = chance.below(50); break;
        case 'a': draw(chance, 16, rows), amount = chance.below(9); break;
        case 'r': draw(chance, 4, rows); break;
        case 's': draw(chance, 1, rows); break;
        default: draw(chance, 2, keys), amount = chance.below(50); break;
        }
    }
};

template <class Store> Answer transfer(Store &it, const Task &task, uint64_t &sum) {
    Row giver{}, taker{};
    if (it.get(task.key[0], giver) == again || it.get(task.key[1], taker) == again) return again;
    uint64_t amount = std::min(task.amount, giver[1]);
    giver[1] -= amount, taker[1] += amount, sum += giver[1] * 3 + taker[1];
    return it.put(task.key[0], giver) == again ? again : it.put(task.key[1], taker);
}

template <class Store> Answer add(Store &it, const Task &task, uint64_t &sum) {
    for (size_t i = 0; i < task.count; i++) {
        Row row{};
        if (it.get(task.key[i], row) == again) return again;
        row[1] += task.amount, sum += row[1];
        if (it.put(task.key[i], row) == again) return again;
    }
    return done;
}

template <class Store> Answer read(Store &it, const Task &task, uint64_t &sum) {
    for (size_t i = 0; i < task.count; i++) {
        Row row{};
        if (it.get(task.key[i], row) == again) return again;
        sum = sum * 7 + row[1];
    }
    return done;
}

template <class Store> Answer churn(Store &it, const Task &task, uint64_t &sum) {
    for (size_t i = 0; i < task.count; i++) {
        Row row{};
        Answer answer = it.get(task.key[i], row);
        if (answer == done) answer = it.remove(task.key[i]), sum += 5;
        else if (answer == absent) answer = it.put(task.key[i], Row{task.key[i], task.amount}), sum += 11;
        if (answer == again) return again;
    }
    return done;
}

template <class Store> void run_task(Store &it, const Task &task, uint64_t &sum) {
    for (int turn = 0;; turn++) {
        uint64_t got = 0;
        it.begin(task.kind == 'r' || task.kind == 's');
        switch (task.kind) {
        case 't': transfer(it, task, got); break;
        case 'a': add(it, task, got); break;
        case 'r': read(it, task, got); break;
        case 's': it.scan(task.key[0], 100, got); break;
        default: churn(it, task, got); break;
        }
        if (it.end(turn)) {
            sum = sum * 1099511628211u + got;
            return;
        }
    }
}

template <class Store> void fill(Store &it, bool half) {
    for (uint64_t key = 0; key < keys;) {
        it.begin(false);
        for (int i = 0; i < 64 && key < keys; i++, key++)
            if ((!half || key % 2 == 0) && it.put(key, Row{key, 1000}) == again) die("fill", 0);
        if (!it.end(0)) die("fill", 1);
        Store::filled();
    }
}

template <class Store> int bench(const std::string &name, const std::string &workload, uint64_t count) {
    Store::open();
    std::vector<Store> stores;
    for (size_t i = 0; i < threads; i++) stores.emplace_back(i);
    fill(stores[0], workload[0] == 'c');
    std::vector<uint64_t> sums(threads), ended(threads);
    std::vector<std::thread> running;
    std::atomic<size_t> ready{0};
    std::atomic<uint64_t> began{0};
    for (size_t i = 0; i < threads; i++)
        running.emplace_back([&, i] {
            Chance chance{88172645463325252u + i * 7919};
            if (++ready == threads) began = now();
            while (began == 0) sched_yield();
            for (uint64_t k = 0; k < count / threads; k++) run_task(stores[i], Task(workload[0], chance), sums[i]);
            ended[i] = now();
            stores[i].rest();
        });
    for (auto &it : running) it.join();
    uint64_t refused = 0;
    for (const Store &it : stores) refused += it.refused;
    double seconds = double(*std::max_element(ended.begin(), ended.end()) - began) / 1e9, all = double(count / threads * threads);
    std::printf("%s %s %zu %.0f %.4f %016llx\n", name.c_str(), workload.c_str(), threads, all / seconds, double(refused) / all, (unsigned long long)sums[0]);
    Store::close();
    return 0;
}

} // namespace

int main(int count, char **words) {
    if (count != 5) {
        std::fprintf(stderr, "bench STORE WORKLOAD THREADS TRANSACTIONS\n");
        return 2;
    }
    std::string store = words[1], workload = words[2];
    threads = std::strtoull(words[3], nullptr, 10);
    uint64_t transactions = std::strtoull(words[4], nullptr, 10);
    if (threads < 1 || threads > CICADA_MOST_CONNECTIONS || std::string("tarsc").find(workload[0]) == std::string::npos) return 2;
    rows = workload.find("-small") == std::string::npos ? 16384 : 1024;
    keys = workload[0] == 'c' ? 2 * rows : rows;
    if (store == "library") return bench<Library>(store, workload, transactions);
#ifdef HAS_LMDB
    if (store == "lmdb") return bench<Lmdb>(store, workload, transactions);
#endif
#ifdef HAS_SQLITE
    if (store == "sqlite") return bench<Sqlite>(store, workload, transactions);
#endif
    if (store == "map") return bench<Map>(store, workload, transactions);
    std::fprintf(stderr, "no store %s, or its header is missing\n", store.c_str());
    return 4;
}
