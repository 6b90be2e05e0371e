#!/usr/bin/env bash
# Measures runs in which many threads wait for each other.
#
# usage: bench/time_waiting.sh [RUNS]
#
# RUNS is how often each script is run, 7 where it is left out. Printed are for each the least, the middle and the greatest
# seconds, with the input read and the text printed. The scripts are made by bench/make_script.py, each for 16 threads:
# numbers on one key and on four that all count up; keys and values of every class in a table that runs out of chunks, and
# in one that runs out of headers, so that calls settle it again and again. OAKMAP may name a program that takes the place
# of the one that bin/oakmap runs, which is proved and built first where there is none of these sources yet.
. "$(dirname "$(readlink -f "${BASH_SOURCE[0]}")")/common.sh"
take_number RUNS 3 7 "$@"
runs=$number

program=${OAKMAP:-}
if [[ -z $program ]]; then
    program=$("$home/bin/oakmap" --program) || fail "there is no program"
fi
[[ -x $program ]] || fail "there is no program $program"

# Runs a script of these words of make_script.py as often as is asked, and prints how long that took.
time_script() {
    local TIMEFORMAT=%R
    python3 "$home/bench/make_script.py" "$@" >"$room/script" || exit 1
    : >"$room/seconds"
    for ((run = 0; run < runs; run++)); do
        { time "$program" run <"$room/script" >"$room/text"; } 2>>"$room/seconds" || fail "$*: status $?"
        python3 "$home/bench/check_run.py" "$room/script" "$room/text" >/dev/null || fail "$*: the text is wrong"
    done
    sort -n "$room/seconds" | awk -v what="$*" '{ all[NR] = $1 }
        END { printf "%s: %s, %s and %s seconds\n", what, all[1], all[int((NR + 1) / 2)], all[NR] }'
}

time_script counts 262144 1 default 16
time_script counts 262144 4 default 16
time_script tight 40000 40 few-chunks 16
time_script tight 40000 40 few-headers 16
