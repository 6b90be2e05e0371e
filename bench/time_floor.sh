#!/usr/bin/env bash
# Measures the floor under a get, a put over a value, a put of a new key and a pair of a scan up: what they take in a table
# that is laid out as OakMap's, by a program that makes the loads and the ordered steps which that layout asks of them and
# keeps nothing for a call that has to wait.
#
# usage: bench/time_floor.sh [CALLS]
#
# The program is bench/peers/floor.cpp, built by `g++ -O3`, each function at the beginning of a cache line: else a scan takes
# up to a tenth more, or not, by each change to the program. Printed are nanoseconds a call, or a pair, by one thread on
# 1,000, 4,000, 16,000 and 60,000 keys with values of 24 bytes and on 16,000 with values of 100, and there by four threads
# beside each other too: the best of seven runs of about CALLS calls, or 1000000, and how many ordered steps a call makes,
# of a put of a new key with its share of the splits. The workloads are those of bench/peers.sh; a pair comes in five ways,
# as the head of the program says: two of them are the floor, and the others tell what the pins take.
. "$(dirname "$(readlink -f "${BASH_SOURCE[0]}")")/common.sh"
take_number CALLS 8 1000000 "$@"
RUNS=7
command -v g++ >/dev/null || fail "a package is missing, as Debian calls it: g++"
g++ -O3 -falign-functions=64 -march=x86-64-v2 -std=c++20 -pthread -o "$room/floor" "$home/bench/peers/floor.cpp" ||
    fail "bench/peers/floor.cpp was not built"

# The nanoseconds of a call of this work on so many keys, by so many threads, with values of so many bytes.
time_work() {
    local work=$1 keys=$2 threads=$3 bytes=$4 rounds least='' took said i calls
    rounds=$((number / keys + 1))
    for ((i = 0; i < RUNS; i++)); do
        said=$("$room/floor" "$work" "$keys" "$rounds" "$threads" "$bytes" 2>&1 >"$room/told") || fail "$said"
        took=${said%% *}
        [[ -n $least ]] && ((took >= least)) || least=$took
    done
    calls=$(head -n 1 "$room/told" | cut -d ' ' -f 1)
    awk -v work="$work" -v keys="$keys" -v threads="$threads" -v bytes="$bytes" -v took="$least" -v calls="$calls" \
        -v said="${said#*makes }" 'BEGIN {
            printf "%-6s %6d keys, %3d bytes, %d threads: %6.1f ns, %s\n", work, keys, bytes, threads, took * threads / calls, said }'
}

for work in get over ingest scan load pins unpinned walk; do
    for keys in 1000 4000 16000 60000; do
        time_work "$work" "$keys" 1 24
    done
    time_work "$work" 16000 1 100
    time_work "$work" 16000 4 100
done
