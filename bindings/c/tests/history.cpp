// A random test whose history is checked: threads run transactions and snapshots over a few keys, and note what each read and wrote, and its stamp. Then the
// transactions are replayed in a plain map in the order of their stamps: each has to have read what the map has there, and each snapshot all that
// transactions up to its stamp have left, and nothing more.
//
//   history [SECONDS] [THREADS] [KEYS] [SEED]
#include <cicada.h>

#include <sched.h>
#include <time.h>

#include <algorithm>
#include <array>
#include <atomic>
#include <cstdio>
#include <cstdlib>
#include <map>
#include <random>
#include <string>
#include <thread>
#include <vector>

namespace {

using Row = std::array<uint64_t, CICADA_COLUMNS>;
using Place = std::pair<uint32_t, uint64_t>;

constexpr uint32_t tables = 3;
constexpr uint64_t most_rounds = 1u << 30;
// So long runs a round at most, in seconds, since its history is kept in memory.
constexpr double round_seconds = 1.5;

uint64_t now() {
    timespec t;
    clock_gettime(CLOCK_MONOTONIC, &t);
    return uint64_t(t.tv_sec) * 1000000000u + uint64_t(t.tv_nsec);
}

// A row tells by each of its columns which it is, so that a mixture of two shows.
Row row_of(uint64_t name) { return {name, ~name, name * 3, name ^ 77, name + 1, name * name}; }

// What a transaction or a snapshot saw or did, one after another. A `listed` is followed by its rows.
enum class Did : uint8_t { got, absent, put, removed, listed, there };
struct Step {
    Did did;
    uint8_t table;
    uint32_t count;
    uint64_t key, name, high;
};
struct Note {
    uint64_t stamp;
    size_t first, last;
    bool snapshot;
};

struct Work {
    cicada_connection *it;
    std::vector<Step> steps;
    std::vector<Note> notes;
    std::mt19937_64 chance;
    std::array<uint64_t, 16> statuses{};
    uint64_t counter = 0, me = 0, mixed = 0, wrong_status = 0;

    uint64_t below(uint64_t n) { return chance() % n; }
};

uint64_t keys = 48;
std::atomic<bool> over;

int32_t read_row(Work &w, uint32_t table, uint64_t key) {
    Row row{};
    int32_t status = cicada_get(w.it, table, key, row.data());
    if (status == CICADA_OK && row != row_of(row[0])) w.mixed++;
    if (status <= CICADA_ABSENT) w.steps.push_back({status == CICADA_OK ? Did::got : Did::absent, uint8_t(table), 0, key, row[0], 0});
    return status;
}

int32_t list_rows(Work &w, uint32_t table, uint64_t low, uint64_t high) {
    static thread_local uint64_t found[4096], rows[4096][CICADA_COLUMNS];
    size_t listed = 0, there = 0;
    size_t room = w.below(3) == 0 ? w.below(8) : 4096;
    int32_t status = cicada_list(w.it, table, low, high, room, found, rows, &listed, &there);
    if (status != CICADA_OK) return status;
    if (listed != std::min(room, there)) w.mixed++;
    w.steps.push_back({Did::listed, uint8_t(table), uint32_t(listed), low, there, high});
    for (size_t i = 0; i < listed; i++) {
        Row row;
        std::copy(rows[i], rows[i] + CICADA_COLUMNS, row.begin());
        if (row != row_of(row[0])) w.mixed++;
        w.steps.push_back({Did::there, uint8_t(table), 0, found[i], row[0], 0});
    }
    return status;
}

int32_t write_row(Work &w, uint32_t table, uint64_t key) {
    uint64_t name = w.me << 48 | ++w.counter;
    Row row = row_of(name);
    int32_t status;
    if (w.below(2) == 0) {
        status = cicada_put(w.it, table, key, row.data());
    } else {
        cicada_operation batch[2] = {};
        size_t done;
        batch[0].kind = CICADA_GET, batch[0].table = table, batch[0].key = key;
        batch[1].kind = CICADA_PUT, batch[1].table = table, batch[1].key = key;
        std::copy(row.begin(), row.end(), batch[1].row);
        status = cicada_apply(w.it, batch, 2, &done);
        if (done >= 1) w.steps.push_back({batch[0].status == CICADA_OK ? Did::got : Did::absent, uint8_t(table), 0, key, batch[0].row[0], 0});
    }
    if (status == CICADA_OK) w.steps.push_back({Did::put, uint8_t(table), 0, key, name, 0});
    return status;
}

int32_t remove_row(Work &w, uint32_t table, uint64_t key) {
    int32_t status = cicada_remove(w.it, table, key);
    if (status <= CICADA_ABSENT) w.steps.push_back({status == CICADA_OK ? Did::removed : Did::absent, uint8_t(table), 0, key, 0, 0});
    return status;
}

int32_t some_step(Work &w, bool snapshot) {
    uint32_t table = uint32_t(w.below(tables));
    uint64_t key = w.below(keys), other = w.below(keys);
    switch (w.below(snapshot ? 6 : 20)) {
    case 0: return list_rows(w, table, std::min(key, other), std::max(key, other));
    case 1:
    case 2:
    case 3:
    case 4:
    case 5:
    case 6: return read_row(w, table, key);
    case 7:
    case 8:
    case 9:
    case 10:
    case 11:
    case 12: return remove_row(w, table, key);
    default: return write_row(w, table, key);
    }
}

// What a fault of a try asks for.
void after(Work &w, int32_t status, uint64_t stamp, int turn) {
    cicada_collect(w.it, nullptr);
    if (status == CICADA_CONFLICT && cicada_hear(w.it, stamp) != CICADA_OK) w.wrong_status++;
    for (int i = 0; i < 1 << std::min(turn, 6); i++) sched_yield();
}

void one_transaction(Work &w) {
    size_t count = 1 + w.below(6);
    for (int turn = 0; turn < 100000; turn++) {
        size_t first = w.steps.size();
        uint64_t stamp = 0;
        if (cicada_begin(w.it, now()) != CICADA_OK) w.wrong_status++;
        int32_t status = CICADA_OK;
        for (size_t i = 0; i < count && status <= CICADA_ABSENT; i++) status = some_step(w, false);
        if (status <= CICADA_ABSENT && w.below(20) == 0) {
            if (cicada_abort(w.it) != CICADA_OK) w.wrong_status++;
            w.steps.resize(first);
            return;
        }
        if (status <= CICADA_ABSENT) {
            status = cicada_commit(w.it, &stamp, nullptr);
        } else {
            if (status == CICADA_CONFLICT && cicada_conflict(w.it, &stamp, nullptr) != CICADA_OK) w.wrong_status++;
            if (cicada_abort(w.it) != CICADA_OK) w.wrong_status++;
        }
        w.statuses[size_t(status)]++;
        if (status == CICADA_OK) {
            w.notes.push_back({stamp, first, w.steps.size(), false});
            return;
        }
        w.steps.resize(first);
        if (status != CICADA_CONFLICT && status != CICADA_PLACES_OUT && status != CICADA_RECORDS_OUT) w.wrong_status++;
        after(w, status, stamp, turn);
        if (status == CICADA_RECORDS_OUT) return;
    }
}

void one_snapshot(Work &w) {
    size_t first = w.steps.size();
    uint64_t stamp = 0;
    if (cicada_snapshot(w.it) != CICADA_OK) w.wrong_status++;
    for (size_t i = 0; i < 3; i++)
        if (some_step(w, true) > CICADA_ABSENT) w.wrong_status++;
    for (uint32_t table = 0; table < tables; table++)
        if (list_rows(w, table, 0, UINT64_MAX) != CICADA_OK) w.wrong_status++;
    if (cicada_finish(w.it, &stamp) != CICADA_OK) w.wrong_status++;
    w.notes.push_back({stamp, first, w.steps.size(), true});
}

void work(Work &w) {
    for (uint64_t i = 0; i < most_rounds && !over; i++) {
        one_transaction(w);
        if (i % 16 == 15) cicada_collect(w.it, nullptr);
        if (i % 32 == 31) one_snapshot(w);
    }
    // (a connection that rests would hold the others back)
    if (cicada_close(w.it) != CICADA_OK) w.wrong_status++;
}

// ---- the check

struct Check {
    std::map<Place, uint64_t> rows;
    uint64_t wrong = 0;
    std::string first;

    void fault(const char *what, const Note &note, const Step &step) {
        if (wrong++ == 0)
            first =
                std::string(what) + " at stamp " + std::to_string(note.stamp) + ", table " + std::to_string(step.table) + ", key " + std::to_string(step.key);
    }

    void listed(const Note &note, const std::vector<Step> &steps, size_t &i) {
        const Step list = steps[i];
        size_t there = 0;
        for (auto row = rows.lower_bound({list.table, list.key}); row != rows.end() && row->first <= Place{list.table, list.high}; ++row, there++) {
            if (there >= list.count) continue;
            const Step &step = steps[i + 1 + there];
            if (step.key != row->first.second || step.name != row->second) fault("another row is listed", note, step);
        }
        if (there != list.name) fault("another number of rows is told", note, list);
        i += list.count;
    }

    void replay(const Note &note, const std::vector<Step> &steps) {
        for (size_t i = note.first; i < note.last; i++) {
            const Step &step = steps[i];
            Place place{step.table, step.key};
            auto row = rows.find(place);
            switch (step.did) {
            case Did::got:
                if (row == rows.end() || row->second != step.name) fault("another row is got", note, step);
                break;
            case Did::absent:
                if (row != rows.end()) fault("a row is absent", note, step);
                break;
            case Did::put: rows[place] = step.name; break;
            case Did::removed:
                if (row == rows.end()) fault("no row is removed", note, step);
                else rows.erase(row);
                break;
            case Did::listed: listed(note, steps, i); break;
            case Did::there: fault("a row of no list", note, step); break;
            }
        }
    }
};

// Runs threads for a while over a new engine, and checks their history; how much was wrong.
uint64_t round_of(double seconds, int threads, uint64_t seed, std::array<uint64_t, 16> &statuses, std::array<uint64_t, 2> &done) {
    static cicada_connection connections[CICADA_MOST_CONNECTIONS];
    if (cicada_open(20000, seed % 2 == 0 ? 0 : 4000, connections, size_t(threads)) != CICADA_OK) return 1;
    std::vector<Work> works(static_cast<size_t>(threads));
    std::vector<std::thread> running;
    over = false;
    for (size_t i = 0; i < works.size(); i++) {
        works[i].it = &connections[i], works[i].me = i + 1;
        works[i].chance.seed(seed * 64 + i);
        running.emplace_back(work, std::ref(works[i]));
    }
    timespec pause{time_t(seconds), long((seconds - double(time_t(seconds))) * 1e9)};
    nanosleep(&pause, nullptr);
    over = true;
    for (auto &it : running) it.join();
    std::vector<std::pair<const Note *, const Work *>> order;
    uint64_t wrong = 0;
    for (const Work &w : works) {
        for (const Note &note : w.notes) order.push_back({&note, &w}), done[note.snapshot]++;
        for (size_t i = 0; i < statuses.size(); i++) statuses[i] += w.statuses[i];
        if (w.mixed != 0) std::printf("thread %llu saw %llu mixed rows\n", (unsigned long long)w.me, (unsigned long long)w.mixed);
        if (w.wrong_status != 0) std::printf("thread %llu met %llu wrong statuses\n", (unsigned long long)w.me, (unsigned long long)w.wrong_status);
        wrong += w.mixed + w.wrong_status;
    }
    // by stamp; a snapshot behind the transaction of the same one
    std::sort(order.begin(), order.end(),
              [](auto &a, auto &b) { return std::pair(a.first->stamp, a.first->snapshot) < std::pair(b.first->stamp, b.first->snapshot); });
    Check check;
    for (size_t i = 0; i < order.size(); i++) {
        const Note &note = *order[i].first;
        if (i > 0 && !note.snapshot && !order[i - 1].first->snapshot && order[i - 1].first->stamp == note.stamp)
            check.wrong++, check.first = "a stamp comes twice";
        check.replay(note, order[i].second->steps);
    }
    if (check.wrong != 0)
        std::printf("seed %llu: %llu wrong answers; the first: %s\n", (unsigned long long)seed, (unsigned long long)check.wrong, check.first.c_str());
    return wrong + check.wrong;
}

} // namespace

int main(int count, char **words) {
    double seconds = count > 1 ? std::atof(words[1]) : 4;
    int threads = count > 2 ? std::atoi(words[2]) : 8;
    if (count > 3) keys = std::strtoull(words[3], nullptr, 10);
    uint64_t seed = count > 4 ? std::strtoull(words[4], nullptr, 10) : 1, wrong = 0;
    std::array<uint64_t, 16> statuses{};
    std::array<uint64_t, 2> done{};
    if (threads < 1 || threads > CICADA_MOST_CONNECTIONS || keys == 0) return 2;
    for (double left = seconds; left > 0; left -= round_seconds) wrong += round_of(std::min(left, round_seconds), threads, seed++, statuses, done);
    std::printf("%d threads: %llu transactions and %llu snapshots replayed, %llu conflicts, %llu places out, %llu records out, %llu wrong\n", threads,
                (unsigned long long)done[0], (unsigned long long)done[1], (unsigned long long)statuses[CICADA_CONFLICT],
                (unsigned long long)statuses[CICADA_PLACES_OUT], (unsigned long long)statuses[CICADA_RECORDS_OUT], (unsigned long long)wrong);
    return wrong != 0 || done[0] == 0 || done[1] == 0;
}
