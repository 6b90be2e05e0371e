#!/usr/bin/env bash
# Measures what a pair of a scan costs a thread that is alone, up and down, and how that grows with the rooms; and what a
# scan of one pair costs it, beside a get.
#
# usage: bench/time_scans.sh [SCANS]
#
# The map has the default shape and, in turn, 1,000, 4,000 and 8,000 keys, each of eight bytes with a value of eight,
# which were put in a scrambled order. A scan goes over the whole map and reads each value; or one begins behind each key,
# and reads its first pair alone. The program is crates/rounds, proved and built by `rt run` there (minutes, where nothing
# is proved yet). It makes SCANS scans of 8,000 keys, or 100, of fewer keys as many more, so that each run gives as many
# pairs; and seven runs of each kind. Printed are the nanoseconds of processor time of a pair in the fastest run, without
# the time of filling the map, and how many times as much a pair costs down as up, and a scan of one pair as a get.
. "$(dirname "$(readlink -f "${BASH_SOURCE[0]}")")/common.sh"
take_number SCANS 5 100 "$@"
scans=$number

RUNS=7

# The fewest seconds of processor time of a run with so many keys and scans in this way, which has to tell the pairs
# and the sum that are due: the values are the numbers below the number of keys.
fewest_seconds() {
    local TIMEFORMAT='%U %S' run pairs=$(($1 * $2)) sum=$(($1 * $2 * ($1 - 1) / 2))
    # Behind the greatest key there is no other; and the value of the least one is 0.
    [[ $3 != next ]] || pairs=$(($2 * ($1 - 1)))
    for ((run = 0; run < RUNS; run++)); do
        { time "$rounds_program" scan "$1" "$2" "$3" >"$room/said"; } 2>&1 || fail "a run failed"
        grep -qx "$1 keys" "$room/said" || fail "not all keys were new"
        grep -qx "$pairs pairs, sum $sum" "$room/said" || fail "the scans gave other pairs"
    done | awk '{ print $1 + $2 }' | sort -n | head -n 1
}

build_rounds scan 0 0 up
for keys in 1000 4000 8000; do
    count=$((scans * 8000 / keys))
    filled=$(fewest_seconds "$keys" 0 up) || exit 1
    up=$(fewest_seconds "$keys" "$count" up) || exit 1
    down=$(fewest_seconds "$keys" "$count" down) || exit 1
    get=$(fewest_seconds "$keys" "$count" get) || exit 1
    next=$(fewest_seconds "$keys" "$count" next) || exit 1
    awk -v keys="$keys" -v pairs="$((keys * count))" -v filled="$filled" -v took="$up $down $get $next" 'BEGIN {
        split(took, seconds)
        for (i in seconds)
            ns[i] = (seconds[i] - filled) * 1e9 / pairs
        printf "%d keys: a pair up %.0f ns, down %.0f ns, ratio %.2f; ", keys, ns[1], ns[2], ns[2] / ns[1]
        printf "a get %.0f ns, a scan of one pair %.0f ns, ratio %.2f\n", ns[3], ns[4], ns[4] / ns[3]
    }'
done
