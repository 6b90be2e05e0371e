// What this machine takes for the steps that the calls of OakMap are made of, whatever the program.
//
// usage: machine
//
// It prints, in nanoseconds by the fastest of seven rounds:
//
// - a load of a word whose place was loaded right before, over so much memory, each word in a cache line of its own
//   and in a random order: what a search pays for each key that it compares, where the caches have none of it;
// - an ordered addition to a word (which x86 locks), over as much memory: what a pin pays, and its undoing;
// - the same where another processor changed each word last, and the words to come are known, so that a processor may
//   fetch some of them ahead: the least that a pin pays among threads;
// - a word that two processors change in turn, each behind the other's change: what a pin of the same word pays.
//
// bench/time_machine.sh builds and runs it.
#include <pthread.h>
#include <sched.h>

#include <algorithm>
#include <atomic>
#include <chrono>
#include <cstddef>
#include <cstdint>
#include <cstdio>
#include <cstdlib>
#include <numeric>
#include <random>
#include <thread>
#include <vector>

namespace {

using Clock = std::chrono::steady_clock;

constexpr int ROUNDS = 7;
constexpr std::size_t STEPS = 1'000'000;

// A cache line with one word that is used.
struct alignas(64) Line {
    std::atomic<std::uint64_t> word = 0;
};

// The numbers below `count` in a random order, the same at each run.
std::vector<std::uint32_t> scrambled(std::size_t count) {
    std::vector<std::uint32_t> order(count);
    std::iota(order.begin(), order.end(), 0);
    std::shuffle(order.begin(), order.end(), std::mt19937(1));
    return order;
}

// So many nanoseconds a step since then.
double since(Clock::time_point begin, std::size_t steps) {
    return std::chrono::duration<double, std::nano>(Clock::now() - begin).count() / static_cast<double>(steps);
}

// Lets the thread run on this processor alone.
void run_on(unsigned processor) {
    cpu_set_t set;
    CPU_ZERO(&set);
    CPU_SET(processor, &set);
    if (pthread_setaffinity_np(pthread_self(), sizeof set, &set) != 0) {
        std::fprintf(stderr, "machine: there is no processor %u\n", processor);
        std::exit(1);
    }
}

// A load behind a load: each line's word names the next line.
double time_loads(std::size_t bytes) {
    std::vector<Line> lines(bytes / sizeof(Line));
    const auto order = scrambled(lines.size());
    for (std::size_t i = 0; i < order.size(); i++)
        lines[order[i]].word = order[(i + 1) % order.size()];
    double fewest = 1e9;
    std::uint64_t at = 0;
    for (int round = 0; round < ROUNDS; round++) {
        const auto begin = Clock::now();
        for (std::size_t step = 0; step < STEPS; step++)
            at = lines[at].word.load(std::memory_order_relaxed);
        fewest = std::min(fewest, since(begin, STEPS));
    }
    if (at >= lines.size())
        std::exit(1);
    return fewest;
}

// Adds 1 to each line's word, in this order.
void add_to_all(std::vector<Line> &lines, const std::vector<std::uint32_t> &order) {
    for (const auto at : order)
        lines[at].word.fetch_add(1);
}

// An ordered addition, where this processor changed the words last.
double time_additions(std::size_t bytes) {
    std::vector<Line> lines(bytes / sizeof(Line));
    const auto order = scrambled(lines.size());
    double fewest = 1e9;
    for (int round = 0; round < ROUNDS; round++) {
        const auto begin = Clock::now();
        add_to_all(lines, order);
        fewest = std::min(fewest, since(begin, order.size()));
    }
    return fewest;
}

// The same, where another processor changed them last.
double time_taken_over(std::size_t bytes) {
    std::vector<Line> lines(bytes / sizeof(Line));
    const auto order = scrambled(lines.size());
    double fewest = 1e9;
    for (int round = 0; round < ROUNDS; round++) {
        std::thread([&] {
            run_on(1);
            add_to_all(lines, order);
        }).join();
        const auto begin = Clock::now();
        add_to_all(lines, order);
        fewest = std::min(fewest, since(begin, order.size()));
    }
    return fewest;
}

// Sets the word to each second number from `first` on, as soon as it is the one before.
void take_turns(std::atomic<std::uint64_t> &word, std::uint64_t first) {
    for (std::uint64_t turn = first; turn < STEPS; turn += 2) {
        while (word.load() != turn) {
        }
        word.store(turn + 1);
    }
}

// A word that another processor and this one change in turn.
double time_turns() {
    double fewest = 1e9;
    for (int round = 0; round < ROUNDS; round++) {
        Line line;
        std::thread other([&] {
            run_on(1);
            take_turns(line.word, 1);
        });
        const auto begin = Clock::now();
        take_turns(line.word, 0);
        fewest = std::min(fewest, since(begin, STEPS));
        other.join();
    }
    return fewest;
}

} // namespace

int main() {
    run_on(0);
    for (const std::size_t kilobytes : {256, 4'096, 16'384})
        std::printf("a load behind a load, over %zu KB: %.1f ns\n", kilobytes, time_loads(kilobytes * 1024));
    for (const std::size_t kilobytes : {256, 4'096, 16'384})
        std::printf("an ordered addition, over %zu KB: %.1f ns\n", kilobytes, time_additions(kilobytes * 1024));
    for (const std::size_t kilobytes : {256, 4'096})
        std::printf("the same behind another processor's, over %zu KB: %.1f ns\n", kilobytes, time_taken_over(kilobytes * 1024));
    std::printf("a word that two processors change in turn: %.1f ns a change\n", time_turns());
}
