// What a user might take instead of OakMap, on the workloads of crates/rounds: the same keys in the same order, the
// same values, and the same bytes of them read. It prints what that program prints, which has to be the same text.
//
// usage: peers MAP WORK KEYS ROUNDS THREADS BYTES
//
// MAP is `std`, a std::map under a std::shared_mutex, or `tbb`, a concurrent_map of oneTBB with a std::mutex for each value,
// since the map guards no value of its own. The latter has no way down.
#include "told.hpp"

#include <tbb/concurrent_map.h>

#include <chrono>
#include <cstdint>
#include <cstdio>
#include <cstdlib>
#include <cstring>
#include <map>
#include <mutex>
#include <shared_mutex>
#include <stdexcept>
#include <string>
#include <thread>
#include <utility>
#include <vector>

namespace {

using Clock = std::chrono::steady_clock;

std::uint64_t number_at(const char* bytes) {
    std::uint64_t number;
    std::memcpy(&number, bytes, 8);
    return __builtin_bswap64(number);
}

void set_number(char* bytes, std::uint64_t number) {
    number = __builtin_bswap64(number);
    std::memcpy(bytes, &number, 8);
}

std::string key_of(std::uint64_t number) {
    std::string key(8, '\0');
    set_number(key.data(), key_number(number));
    return key;
}

std::string counter_of(std::uint16_t state) {
    int counter = state / 64;
    return {static_cast<char>(counter >> 8), static_cast<char>(counter)};
}

std::uint64_t sum_of(const std::string& value) {
    std::uint64_t sum = 0;
    for (unsigned char byte : value) sum += byte;
    return sum;
}

const std::string ZERO(8, '\0');

void add_one(std::string& value) {
    set_number(value.data(), number_at(value.data()) + 1);
}

class LockedMap {
    std::map<std::string, std::string> map;
    mutable std::shared_mutex lock;

public:
    static constexpr bool HAS_WAY_DOWN = true;

    void add(const std::string& key) {
        std::unique_lock held(lock);
        add_one(map.try_emplace(key, ZERO).first->second);
    }

    void put(const std::string& key, const std::string& value) {
        std::unique_lock held(lock);
        map.insert_or_assign(key, value);
    }

    void get(const std::string& key, Told& told) const {
        std::shared_lock held(lock);
        auto found = map.find(key);
        if (found != map.end()) told.then(sum_of(found->second));
    }

    void up(Told& told) const {
        std::shared_lock held(lock);
        for (auto& [key, value] : map) told.then(number_at(value.data()));
    }

    void down(Told& told) const {
        std::shared_lock held(lock);
        for (auto pair = map.rbegin(); pair != map.rend(); ++pair) told.then(number_at(pair->second.data()));
    }
};

class SkipMap {
    struct Cell {
        std::mutex lock;
        std::string value;

        explicit Cell(const std::string& first) : value(first) {}
    };

    tbb::concurrent_map<std::string, Cell> map;

    // The cell of a key, and whether it was made with this value.
    std::pair<Cell&, bool> cell_of(const std::string& key, const std::string& value) {
        auto found = map.find(key);
        if (found != map.end()) return {found->second, false};
        auto [made, is_new] =
            map.emplace(std::piecewise_construct, std::forward_as_tuple(key), std::forward_as_tuple(value));
        return {made->second, is_new};
    }

public:
    static constexpr bool HAS_WAY_DOWN = false;

    void add(const std::string& key) {
        auto [cell, is_new] = cell_of(key, ZERO);
        std::lock_guard held(cell.lock);
        add_one(cell.value);
    }

    void put(const std::string& key, const std::string& value) {
        auto [cell, is_new] = cell_of(key, value);
        if (is_new) return;
        std::lock_guard held(cell.lock);
        cell.value = value;
    }

    void get(const std::string& key, Told& told) {
        auto found = map.find(key);
        if (found == map.end()) return;
        std::lock_guard held(found->second.lock);
        told.then(sum_of(found->second.value));
    }

    void up(Told& told) {
        for (auto& [key, cell] : map) {
            std::lock_guard held(cell.lock);
            told.then(number_at(cell.value.data()));
        }
    }

    void down(Told&) {}
};

struct Asked {
    std::string work;
    std::uint32_t keys, rounds, threads, bytes;
};

// One thread's share of the work.
template <class Map> class Worker {
    Map& map;
    const Asked& asked;
    const std::uint32_t number;
    std::uint16_t state;
    std::string value;

    Told add() {
        Told told;
        for (std::uint32_t call = 0; call < asked.keys; call++) {
            state = static_cast<std::uint16_t>(25173 * state + 13849);
            map.add(counter_of(state));
            told.then(0);
        }
        return told;
    }

    Told put(std::uint64_t more) {
        Told told;
        for (std::uint32_t key = number; key < asked.keys; key += asked.threads) {
            set_number(value.data(), key + more);
            map.put(key_of(key), value);
            told.then(0);
        }
        return told;
    }

    Told get(std::uint32_t from, std::uint32_t to) {
        Told told;
        for (std::uint32_t key = from; key < to; key++) map.get(key_of(key), told);
        return told;
    }

    Told go_round(std::uint32_t round) {
        Told told;
        if (asked.work == "add") return add();
        if (asked.work == "ingest") return put(0);
        if (asked.work == "over") return put(round + std::uint64_t{1});
        if (asked.work == "get") {
            std::uint32_t from = number * (asked.keys / asked.threads);
            told = get(from, asked.keys);
            told.with(get(0, from));
        } else if (asked.work == "up") {
            map.up(told);
        } else {
            map.down(told);
        }
        return told;
    }

public:
    Told told;

    Worker(Map& map, const Asked& asked, std::uint32_t number)
        : map(map), asked(asked), number(number), state(static_cast<std::uint16_t>(number)), value(asked.bytes, 'v') {}

    void work() {
        Told all;
        for (std::uint32_t round = 0; round < asked.rounds; round++) all.with(go_round(round));
        told = all;
    }
};

struct Measured {
    Told work, content;
    Clock::duration took{};
};

// Does the work on one map.
template <class Map> void measure_map(const Asked& asked, Measured& measured) {
    Map map;
    if (asked.work != "add" && asked.work != "ingest") {
        Worker<Map>(map, Asked{"ingest", asked.keys, 1, 1, asked.bytes}, 0).work();
    }
    std::vector<Worker<Map>> workers;
    for (std::uint32_t number = 0; number < asked.threads; number++) workers.emplace_back(map, asked, number);
    auto begin = Clock::now();
    std::vector<std::thread> threads;
    for (auto& worker : workers) threads.emplace_back([&worker] { worker.work(); });
    for (auto& thread : threads) thread.join();
    measured.took += Clock::now() - begin;
    for (auto& worker : workers) measured.work.with(worker.told);
    Told content;
    map.up(content);
    measured.content.with(content);
}

// Does what is asked for, each round of new keys on a map of its own.
template <class Map> bool measure(Asked asked) {
    if (asked.work == "down" && !Map::HAS_WAY_DOWN) return false;
    std::uint32_t maps = 1;
    if (asked.work == "ingest") std::swap(maps, asked.rounds);
    Measured measured;
    for (std::uint32_t map = 0; map < maps; map++) measure_map<Map>(asked, measured);
    std::printf("%ju calls, sum %ju\n", std::uintmax_t{measured.work.calls}, std::uintmax_t{measured.work.sum});
    std::printf("%ju keys, sum %ju\n", std::uintmax_t{measured.content.calls}, std::uintmax_t{measured.content.sum});
    auto took = std::chrono::duration_cast<std::chrono::nanoseconds>(measured.took).count();
    std::fprintf(stderr, "%jd ns\n", std::intmax_t{took});
    return true;
}

std::uint32_t count_in(const char* word) {
    char* end;
    unsigned long count = std::strtoul(word, &end, 10);
    return *word == '\0' || *end != '\0' || count > 65536 * 16 ? 0 : static_cast<std::uint32_t>(count);
}

bool run(int count, char** words) {
    if (count != 7) return false;
    Asked asked{words[2], count_in(words[3]), count_in(words[4]), count_in(words[5]), count_in(words[6])};
    bool known = false;
    for (auto work : {"add", "ingest", "get", "over", "up", "down"}) known = known || asked.work == work;
    if (!known || asked.keys == 0 || asked.rounds == 0 || asked.threads == 0 || asked.bytes < 8) return false;
    std::string map = words[1];
    return map == "std" ? measure<LockedMap>(asked) : map == "tbb" && measure<SkipMap>(asked);
}

}  // namespace

int main(int count, char** words) {
    if (run(count, words)) return 0;
    std::fprintf(stderr, "usage: peers std|tbb add|ingest|get|over|up|down KEYS ROUNDS THREADS BYTES; tbb has no down\n");
    return 2;
}
