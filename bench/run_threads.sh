#!/usr/bin/env bash
# Runs scripts of 2, 4 and 16 threads, each within a limit of time, and judges each text from outside.
#
# usage: bench/run_threads.sh [SECONDS]
#
# SECONDS is the limit of each run, 60 where it is left out. The scripts are made by bench/make_script.py: numbers on
# four keys that all threads count up, mixed calls on eight keys that all share, keys of each thread's own, small tables
# that run out of blocks of each class, of headers and of chunks, and the greatest script, of 262,144 calls in the
# greatest table. Each is run once by bin/oakmap, which proves and builds the program first where there is none of
# these sources yet, has to end with 0, and its text has to pass bench/check_run.py. Printed are for each its seconds, and
# how many replies of each kind came. It ends with 0 where that is so of each run, and each of the six refusals came.
. "$(dirname "$(readlink -f "${BASH_SOURCE[0]}")")/common.sh"
take_number SECONDS 5 60 "$@"
most=$number

# Runs a script of these words of make_script.py within the limit, and judges its text.
run_script() {
    local TIMEFORMAT=%R seconds status told
    python3 "$home/bench/make_script.py" "$@" >"$room/script" || exit 1
    seconds=$({ time timeout "$most" "$home/bin/oakmap" run <"$room/script" >"$room/text"; } 2>&1)
    status=$?
    ((status != 124)) || fail "$*: not done within $most seconds"
    ((status == 0)) || fail "$*: status $status, $(head -n 1 "$room/text")"
    told=$(python3 "$home/bench/check_run.py" "$room/script" "$room/text") || fail "$*: the text is wrong"
    printf '%s: %s seconds, status %d, %s\n' "$*" "$seconds" "$status" "$told" | tee -a "$room/told"
}

"$home/bin/oakmap" run <"$home/examples/first.oak" >"$room/text" || fail "the program does not run"
for threads in 2 4 16; do
    run_script counts 40000 4 default "$threads"
    run_script mixed 40000 8 default "$threads"
    run_script own 40000 100 default "$threads"
    for shape in few-b16 few-b64 few-b256 few-b1024 few-headers few-chunks; do
        run_script tight 4000 40 "$shape" "$threads"
    done
    run_script mixed 262144 30000 greatest "$threads"
done
for lack in b16 b64 b256 b1024 header room; do
    grep -q " full $lack" "$room/told" || fail "no call was refused for want of $lack"
done
