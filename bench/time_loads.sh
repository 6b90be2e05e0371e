#!/usr/bin/env bash
# Times the program on scripts of mixed calls, of one thread and of several, and asserts that each ends within its
# seconds.
#
# usage: bench/time_loads.sh [CALLS]
#
# A script has CALLS calls over all its threads, or 262144, which are the most that there may be. Three loads are run,
# each by 1, 2, 4 and 16 threads that share its calls out: mixed calls with 32 scans over 30,000 keys in the greatest
# shape, the same over 1,000 keys in the default shape, and mixed calls without scans over 16,000 keys in the greatest
# shape, which are shared out as well, so that each thread has its own. A run of the second load by one thread may take
# 2 seconds, and each other run 20. Each is run once by bin/oakmap, which proves and builds the program first where
# there is none of these sources yet. Printed are for each load the seconds of its runs, reading and printing among them,
# and the last lines of the text of the first: what is used of the table.
. "$(dirname "$(readlink -f "${BASH_SOURCE[0]}")")/common.sh"
take_number CALLS 6 262144 "$@"
calls=$number

# Times a script of this kind with so many keys, in this shape, by so many threads, which may take so many seconds:
# prints the seconds.
seconds_of() {
    local kind=$1 keys=$2 shape=$3 threads=$4 most=$5 TIMEFORMAT=%R seconds
    [[ $kind != own ]] || keys=$((keys / threads))
    python3 "$home/bench/make_script.py" "$kind" "$calls" "$keys" "$shape" "$threads" >"$room/script" || exit 1
    seconds=$({ time "$home/bin/oakmap" run <"$room/script" >"$room/text"; } 2>&1) ||
        fail "the program failed: $(head -n 1 "$room/text") $seconds"
    awk -v seconds="$seconds" -v most="$most" 'BEGIN { exit !(seconds <= most) }' ||
        fail "$seconds seconds by $threads threads are more than $most"
    printf '%s\n' "$seconds"
}

# Times a load by 1, 2, 4 and 16 threads; by one it may take so many seconds.
time_load() {
    local kind=$1 keys=$2 shape=$3 most=$4 threads seconds line=
    for threads in 1 2 4 16; do
        seconds=$(seconds_of "$kind" "$keys" "$shape" "$threads" "$most") || exit 1
        ((threads > 1)) || cp "$room/text" "$room/first"
        line+=", $seconds"
        most=20
    done
    printf '%s, %d calls over %d keys in the %s shape, by 1, 2, 4 and 16 threads: %s seconds\n' \
        "$kind" "$calls" "$keys" "$shape" "${line#, }"
    tail -n 6 "$room/first"
}

"$home/bin/oakmap" run <"$home/examples/first.oak" >"$room/text" || fail "the program does not run"
cmp -s "$room/text" "$home/examples/first.txt" || fail "the first example has another text"
time_load mixed 30000 greatest 20
time_load mixed 1000 default 2
time_load own 16000 greatest 20
