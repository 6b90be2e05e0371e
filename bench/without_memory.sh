#!/usr/bin/env bash
# Runs the program with ever more memory, and asserts that it ends with 6 and no output where it finds too
# little, and else with 0 and the text of the run.
#
# usage: bench/without_memory.sh [STEP]
#
# STEP is how many kilobytes more each run may use, 64 where it is left out. The script has 4,000 mixed calls.
# It ends with 0 where each run did as it should, and both ends came.
. "$(dirname "$(readlink -f "${BASH_SOURCE[0]}")")/common.sh"
take_number STEP 6 64 "$@"
step=$number
program=$("$home/bin/oakmap" --program) || fail "there is no program"

# Runs the program within so many kilobytes.
run_within() {
    { (ulimit -v "$1" && shift && exec "$program" "$@" <"$room/script" >"$room/text"); } 2>/dev/null
}

python3 "$home/bench/make_script.py" mixed 4000 500 >"$room/script" || exit 1
"$home/bin/oakmap" run <"$room/script" >"$room/whole" || fail "the program does not run"

# Below this the system can't start it: wrong words end with 2 as soon as it starts.
limit=$step
until run_within "$limit" wrong words; (($? == 2)); do
    limit=$((limit + step))
    ((limit < 1000000)) || fail "the program does not start"
done

refused=0
until run_within "$limit" run; status=$?; ((status == 0)); do
    ((status == 6)) || fail "status $status within $limit kilobytes"
    [[ ! -s $room/text ]] || fail "status 6 with output within $limit kilobytes"
    refused=$((refused + 1))
    limit=$((limit + step))
done
cmp -s "$room/text" "$room/whole" || fail "status 0 with another text within $limit kilobytes"
((refused > 0)) || fail "no run was refused memory: take a smaller step"
printf '%d runs without memory ended with 6; the first with enough, %d kilobytes, with 0\n' "$refused" "$limit"
