#!/usr/bin/env bash
# Measures what a get, and a put over a value of the same class, cost a thread that is alone; and what a get and an
# insert cost it in a full chunk.
#
# usage: bench/time_calls.sh [CALLS]
#
# The table has one room with one key, three bytes long, whose value has eight: so a get is the pins of the room
# and of the header with their undoing, the room's bounds, a search of one entry, and the words of the value; a
# put over it stores the bytes under the header's lock. The program is crates/rounds, proved and built by
# `rt run` there (minutes, where nothing is proved yet). It makes CALLS calls a run, or 5000000, and seven runs
# of each kind. Printed are the nanoseconds of processor time of a call in the fastest run.
#
# Then the table has one chunk with 64 entries, and with 256, which is filled by keys of eight bytes with values of eight,
# in a scrambled order. A run gets each key of the full chunk again and again, CALLS gets in all. Other runs fill the
# chunks of new tables, one after the other, to the last entry and to the half, so that the inserts into the second halves
# are a tenth of CALLS: what they take is the time of the whole fills less that of the half ones, as making and closing a
# table takes both the same. Printed are the nanoseconds of processor time of a get in the full chunk, and of an insert
# while the chunk goes from half full to full, by the fastest of seven runs of each kind.
. "$(dirname "$(readlink -f "${BASH_SOURCE[0]}")")/common.sh"
take_number CALLS 9 5000000 "$@"
calls=$number

RUNS=7
# So many gets are made for one insert.
GETS_AN_INSERT=10

# The fewest seconds of processor time of a run by these words, which has to tell the lines in $room/due first.
fewest_seconds() {
    local TIMEFORMAT=%U run
    for ((run = 0; run < RUNS; run++)); do
        { time "$rounds_program" point "$@" >"$room/said"; } 2>&1 || fail "a run failed"
        head -n 2 "$room/said" | cmp -s - "$room/due" || fail "a run by $* told other numbers"
    done | sort -n | head -n 1
}

# The fewest seconds of a run with so many gets of the one key and puts over its value: a get tells 1, the number of the
# first put, and each put one more than the one before.
time_key() {
    printf '%d gets, sum %d\n' "$1" "$1" >"$room/due"
    printf '%d puts, sum %d\n' "$2" $(($2 * ($2 + 3) / 2)) >>"$room/due"
    fewest_seconds "$1" "$2"
}

# The fewest seconds of a run that fills so many chunks of so many entries by so many keys, each of them new, and gets each
# key of the last one so many times (the first word): a get tells 1, the number of the key's only put.
time_fills() {
    printf '%d fills, %d keys new\n' "$2" $(($2 * $4)) >"$room/due"
    printf '%d gets of each key, sum %d\n' "$1" $(($1 * $4)) >>"$room/due"
    fewest_seconds "$1" "$2" "$3" "$4"
}

# Prints the line of chunks with so many entries.
time_chunk() {
    local entries=$1 half=$(($1 / 2)) rounds=$((calls / $1 + 1)) once got halves wholes
    local fills=$((calls / GETS_AN_INSERT / half + 1))
    once=$(time_fills 0 1 "$entries" "$entries") || exit 1
    got=$(time_fills "$rounds" 1 "$entries" "$entries") || exit 1
    halves=$(time_fills 0 "$fills" "$entries" "$half") || exit 1
    wholes=$(time_fills 0 "$fills" "$entries" "$entries") || exit 1
    awk -v entries="$entries" -v gets="$((rounds * entries))" -v inserts="$((fills * (entries - half)))" \
        -v once="$once" -v got="$got" -v halves="$halves" -v wholes="$wholes" 'BEGIN {
        printf "a chunk of %d: a get %.0f ns, an insert %.0f ns\n",
            entries, (got - once) * 1e9 / gets, (wholes - halves) * 1e9 / inserts
    }'
}

build_rounds point 0 0
got=$(time_key "$calls" 0) || exit 1
told=$(time_key 0 "$calls") || exit 1
awk -v calls="$calls" -v got="$got" -v told="$told" 'BEGIN {
    printf "a get %.0f ns, a put over a value %.0f ns\n", got * 1e9 / calls, told * 1e9 / calls
}'
time_chunk 64
time_chunk 256
