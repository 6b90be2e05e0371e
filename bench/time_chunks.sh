#!/usr/bin/env bash
# Measures what a get and a pair of a scan cost a thread that is alone, and how long settling takes, by the chunks that
# are open; and times a script that goes on putting new keys where all chunks are in use.
#
# usage: bench/time_chunks.sh [READS]
#
# A chunk has four entries, and the map in turn 3, 139, 577 and 1,965 keys, each of eight bytes with a value of eight, which
# were put in a scrambled order: so 1, 50, 200 and 800 chunks are open. A run gets each key, or scans the whole map up or
# down and reads each value, again and again, until it has read READS values, or 2000000; or it settles the map of 200 or
# 800 chunks 2,000 times, which merges none of them, as no two neighbours have few entries. The program is
# crates/rounds, proved and built by `rt run` there (minutes, where nothing is proved yet), and makes seven runs of
# each kind. Printed are the nanoseconds of processor time of a get and of a pair, and the microseconds of settling once, in
# the fastest run, without the time of filling the map.
#
# Then 1,600 keys in that order stand in 668 chunks of four entries, and in 16 of 160, and the same is printed of these.
#
# The script puts 3,200 rising keys, one by one, where a chunk has four entries and there may be 1,024 chunks, the most
# that there can be. It is run once by bin/oakmap, which proves and builds the program first where it was not yet. Printed
# are the seconds of the run, reading and printing among them, how many puts were refused, and the chunks in use.
. "$(dirname "$(readlink -f "${BASH_SOURCE[0]}")")/common.sh"
take_number READS 8 2000000 "$@"
reads=$number

RUNS=7
ENTRIES=4
MANY_ENTRIES=160
entries=$ENTRIES
SETTLINGS=2000
RISING_KEYS=3200

# The fewest seconds of processor time of a run with so many keys and rounds of this work, which has to tell so many
# pairs and chunks.
fewest_seconds() {
    local keys=$1 rounds=$2 work=$3 pairs=$4 chunks=$5 TIMEFORMAT='%U %S' run
    for ((run = 0; run < RUNS; run++)); do
        { time "$rounds_program" scan "$keys" "$rounds" "$work" "$entries" >"$room/said"; } 2>&1 ||
            fail "a run failed"
        grep -qx "$keys keys" "$room/said" || fail "not all keys were new"
        grep -qx "$pairs pairs, sum $((pairs * (keys - 1) / 2))" "$room/said" || fail "other values were read"
        grep -q " $chunks chunks in use" "$room/said" || fail "$keys keys have not $chunks chunks"
    done | awk '{ print $1 + $2 }' | sort -n | head -n 1
}

# Prints the line of the map with so many keys and chunks.
time_chunks() {
    local keys=$1 chunks=$2 rounds=$(((reads + $1 - 1) / $1)) filled got up down settled=-
    local pairs=$((rounds * keys))
    filled=$(fewest_seconds "$keys" 0 get 0 "$chunks") || exit 1
    got=$(fewest_seconds "$keys" "$rounds" get "$pairs" "$chunks") || exit 1
    up=$(fewest_seconds "$keys" "$rounds" up "$pairs" "$chunks") || exit 1
    down=$(fewest_seconds "$keys" "$rounds" down "$pairs" "$chunks") || exit 1
    if ((chunks >= 200)); then
        settled=$(fewest_seconds "$keys" "$SETTLINGS" settle 0 "$chunks") || exit 1
    fi
    awk -v chunks="$chunks" -v pairs="$pairs" -v settlings="$SETTLINGS" \
        -v filled="$filled" -v got="$got" -v up="$up" -v down="$down" -v settled="$settled" '
        function nanoseconds(seconds) { return (seconds - filled) * 1e9 / pairs }
        BEGIN {
            printf "%6d %8.0f %12.0f %14.0f", chunks, nanoseconds(got), nanoseconds(up), nanoseconds(down)
            if (settled != "-") printf " %12.0f", (settled - filled) * 1e6 / settlings
            print ""
        }'
}

write_rising() {
    printf 'oak 1\nshape 1024 %d 8192 16384 4096 1024 512\nthread\n' "$ENTRIES"
    awk -v keys="$RISING_KEYS" 'BEGIN { for (i = 0; i < keys; i++) printf "put %08x %016x\n", i, i }'
    printf 'end\n'
}

build_rounds scan 0 0 up
"$home/bin/oakmap" run <"$home/examples/first.oak" >"$room/text" || fail "the program does not run"
cmp -s "$room/text" "$home/examples/first.txt" || fail "the first example has another text"

echo "chunks   get, ns  pair up, ns  pair down, ns  settling, us"
time_chunks 3 1
time_chunks 139 50
time_chunks 577 200
time_chunks 1965 800

echo "1600 keys:"
time_chunks 1600 668
entries=$MANY_ENTRIES
time_chunks 1600 16
entries=$ENTRIES

write_rising >"$room/script"
TIMEFORMAT=%R
seconds=$({ time "$home/bin/oakmap" run <"$room/script" >"$room/text"; } 2>&1) ||
    fail "the program failed: $(head -n 1 "$room/text") $seconds"
grep -qx 'chunks 1024 1024' "$room/text" || fail "the script left chunks: $(tail -n 1 "$room/text")"
printf '%d rising keys at %d entries a chunk, %d of them refused, with 1024 chunks in use: %s seconds\n' \
    "$RISING_KEYS" "$ENTRIES" "$(grep -c ' full room$' "$room/text")" "$seconds"
