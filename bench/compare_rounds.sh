#!/usr/bin/env bash
# Compares the time that a value's calls take in OakMap with that of the same atomic steps in C++.
#
# usage: bench/compare_rounds.sh [ROUNDS]
#
# A round is claim, take, two stores, fill, pin, reading, byte, same, eight, copy, done, withdraw and give: 19
# atomic steps, by one thread. The Rattle program is crates/rounds, proved and built by `rt run` there
# (minutes, where nothing is proved yet); the C++ program is bench/round.cpp, built by `clang++ -O2`. Each runs
# seven times, in turn, ROUNDS rounds at a time, or 10000000, and has to print the same line. Printed are, of
# each, the nanoseconds of processor time of a round in the fastest run, and how many times the C++ round that
# of OakMap is.
. "$(dirname "$(readlink -f "${BASH_SOURCE[0]}")")/common.sh"
take_number ROUNDS 12 10000000 "$@"
rounds=$number

RUNS=7

# Runs a program, and prints its seconds of processor time.
seconds_of() {
    local TIMEFORMAT=%U
    { time "$@" >"$room/said"; } 2>&1 || fail "$1 failed"
    head -n 1 "$room/said" >>"$room/lines"
}

build_rounds value 0
clang++ -std=c++20 -O2 -march=x86-64-v2 -o "$room/round" "$home/bench/round.cpp" || fail "bench/round.cpp was not built"

for ((run = 0; run < RUNS; run++)); do
    seconds_of "$rounds_program" value "$rounds" >>"$room/oakmap" || exit 1
    seconds_of "$room/round" "$rounds" >>"$room/cpp" || exit 1
done
[[ $(sort -u "$room/lines" | wc -l) -eq 1 ]] || fail "the two programs print different sums"

awk -v rounds="$rounds" -v oakmap="$(sort -n "$room/oakmap" | head -n 1)" -v cpp="$(sort -n "$room/cpp" | head -n 1)" 'BEGIN {
    printf "OakMap %.1f ns a round, C++ %.1f ns, %.2f times\n", oakmap * 1e9 / rounds, cpp * 1e9 / rounds, oakmap / cpp
}'
