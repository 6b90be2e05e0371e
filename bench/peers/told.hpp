// What the programs beside this file tell of the workloads of crates/rounds, and the order of the keys.
#pragma once

#include <cstdint>

// How many calls went through, and what they read.
struct Told {
    std::uint64_t calls = 0, sum = 0;

    void then(std::uint64_t number) {
        calls++;
        sum = sum * 31 + number;
    }

    void with(const Told& others) {
        calls += others.calls;
        sum += others.sum;
    }

    bool operator==(const Told&) const = default;
};

// The key of a number, as the number that its eight bytes are. The keys of rising numbers come in a scrambled order.
inline std::uint64_t key_number(std::uint64_t number) { return number * 2654435761u % 1000003; }
