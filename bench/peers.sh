#!/usr/bin/env bash
# Compares OakMap with maps that a user might take instead, on the same workloads in one run, and draws what came.
#
# usage: bench/peers.sh [CALLS [FOLDER]]
#
# The maps are OakMap by the calls of crates/oak_caller (crates/rounds, proved and built by `rt run` there, in minutes
# where nothing is proved yet), std::map under a std::shared_mutex and oneTBB's concurrent_map (bench/peers/peers.cpp,
# built by `g++ -O3`), and java.util.concurrent's ConcurrentSkipListMap (bench/peers/Peers.java). Nothing is installed: what
# is missing is named.
#
# First come six workloads, by 1 and by 4 threads, on 16,000 keys of eight bytes with values of 100: additions to 1,024
# counters, puts of new keys, gets that add up a value's bytes, puts over values, and scans up and down that read the
# first eight bytes of each value. Then come a get, a put over a value, a put of a new key and a pair of a scan up, by one
# thread, on 1,000, 4,000, 16,000 and 60,000 keys with values of 24 bytes. A map has at most 16,384 blocks of 256 bytes, so
# as many values of 65 to 256, and 65,536 of 64 and of 16 bytes; a key of eight bytes takes one of 16, so with values of at
# most 16 there would be room for 32,768 keys.
#
# Each map makes seven runs of each kind, in turn with the others, of about CALLS calls or 4 * CALLS pairs, or 200000, and
# has to print what the others print: how many calls went through, what they read, and what the map has behind them. A
# program takes the time of the work alone, with the start and the end of its threads. Printed are both tables, as
# docs/COSTS.md has them, and the seconds of all. FOLDER, or docs/, gets the charts peers.svg and peers_by_keys.svg.
. "$(dirname "$(readlink -f "${BASH_SOURCE[0]}")")/common.sh"
folder=$home/docs
if (($# == 2)); then
    folder=$2
    set -- "$1"
fi
take_number 'CALLS [FOLDER]' 7 200000 "$@"
calls=$number
[[ -d $folder ]] || fail "there is no folder $folder"

RUNS=7
MAPS=(oakmap std tbb java)

# Ends the script where a package is missing, with the names of all that are.
need_packages() {
    local missing=()
    command -v g++ >/dev/null || missing+=(g++)
    echo '#include <tbb/concurrent_map.h>' | g++ -std=c++20 -fsyntax-only -x c++ - 2>"$room/log" || missing+=(libtbb-dev)
    command -v javac >/dev/null || missing+=(openjdk-17-jdk-headless)
    command -v python3 >/dev/null || missing+=(python3)
    ((${#missing[@]} == 0)) || fail "packages are missing, as Debian calls them: ${missing[*]}"
}

build() {
    build_rounds peer add 1 1 1
    g++ -O3 -march=x86-64-v2 -std=c++20 -pthread -o "$room/peers" "$home/bench/peers/peers.cpp" -ltbb ||
        fail "bench/peers/peers.cpp was not built"
    javac -d "$room" "$home/bench/peers/Peers.java" || fail "bench/peers/Peers.java was not built"
}

# Runs the work, with these words, on a map.
run_map() {
    local map=$1
    shift
    case $map in
    oakmap) "$rounds_program" peer "$@" ;;
    java) java -cp "$room" Peers "$@" ;;
    *) "$room/peers" "$map" "$@" ;;
    esac
}

# Has all maps do the work, in turn, as often as they have to. Its results are of this table, and the words before the
# last one are WORK, KEYS and THREADS.
measure() {
    local table=$1 work=$2 keys=$3 threads=$4 bytes=$5 all=$calls rounds run map
    [[ $work != up && $work != down ]] || all=$((4 * calls))
    rounds=$(((all + keys - 1) / keys))
    for ((run = 0; run < RUNS; run++)); do
        for map in "${MAPS[@]}"; do
            [[ $map$work != tbbdown ]] || continue
            run_map "$map" "$work" "$keys" "$rounds" "$threads" "$bytes" >"$room/said" 2>"$room/took" ||
                fail "$map: $work failed: $(head -n 1 "$room/took")"
            [[ $map != oakmap || $run != 0 ]] || cp "$room/said" "$room/first"
            cmp -s "$room/said" "$room/first" || fail "$map: $work by $threads threads came to other results"
            echo "$table $map $work $keys $threads $(head -n 1 "$room/said" | cut -d ' ' -f 1) $(cut -d ' ' -f 1 "$room/took")"
        done
    done
}

need_packages
build
SECONDS=0
for work in add ingest get over up down; do
    for threads in 1 4; do
        measure threads "$work" 16000 "$threads" 100
    done
done >"$room/results" || exit 1
for work in get over ingest up; do
    for keys in 1000 4000 16000 60000; do
        measure keys "$work" "$keys" 1 24
    done
done >>"$room/results" || exit 1
PYTHONDONTWRITEBYTECODE=1 python3 "$home/bench/draw_peers.py" "$room/results" "$folder" || exit 1
echo
echo "All runs: $SECONDS seconds."
