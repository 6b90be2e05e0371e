#!/usr/bin/env bash
# Makes each allocation of small runs fail in turn, and asserts that the program then ends with 6 and no output, or with
# 0 and the whole text: some buffers grow to less where more is not found.
#
# usage: bench/fail_allocations.sh
#
# The runs are those of the scripts in examples/, by the program that bin/oakmap runs, which is proved and built first
# where there is none of these sources yet. Printed is for each how many allocations it has, and how many of them the
# program can't do without.
. "$(dirname "$(readlink -f "${BASH_SOURCE[0]}")")/common.sh"
program=$("$home/bin/oakmap" --program) || fail "there is no program"
cc -shared -fPIC -O1 -o "$room/fail.so" "$home/bench/fail_allocation.c" -ldl || fail "the failing allocator does not compile"
head -c 8 /dev/zero >"$room/count"

# Runs the script with the allocation number $2 failing, or none where it is 0.
run_failing() {
    COUNT_ALLOCATIONS=$room/count FAIL_ALLOCATION=$2 LD_PRELOAD=$room/fail.so "$program" run <"$1" >"$room/text"
}

for script in "$home"/examples/*.oak; do
    name=$(basename "$script" .oak)
    run_failing "$script" 0 || fail "$name does not run"
    cmp -s "$room/text" "${script%.oak}.txt" || fail "$name has another text"
    all=$(od -An -t u8 "$room/count" | tr -d ' ')
    needed=0
    for ((number = 1; number <= all; number++)); do
        run_failing "$script" "$number"
        status=$?
        if ((status == 6)) && [[ ! -s $room/text ]]; then
            needed=$((needed + 1))
        elif ((status != 0)) || ! cmp -s "$room/text" "${script%.oak}.txt"; then
            fail "$name ended with $status and another text where allocation $number failed"
        fi
    done
    printf '%s: %d allocations; without one of %d the program ends with 6, without another with the whole text\n' "$name" "$all" "$needed"
done
