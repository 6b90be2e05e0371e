#!/usr/bin/env bash
# Runs random scripts under random disturbances, each drawn from a seed, and judges each run from outside.
#
# usage: bench/torture.sh [SECONDS]
#        bench/torture.sh seed SEED
#
# The first form runs one seed behind the other for SECONDS, 600 where it is left out. It prints each minute a line of how
# often each kind of run ended with each status, a line for each run that differed, with its seed and the folder in which
# its files are kept, and a table behind all. It ends with 0 where none differed. The second form runs one seed, keeps its
# files, and says what came and where they are. Of a run all but the order of the threads comes from its seed alone. OAKMAP
# may name a program that takes the place of the one that bin/oakmap runs, which is proved and built first where there is
# none of these sources yet.
#
# A script has 1 to 16 threads that make up to 8,000 calls on few keys, most in a table that runs full. The kinds of runs:
#
#   whole      nothing fails. In half of all runs, of whatever kind, the reads and the writes come short, too
#   pipe       the input comes from a pipe, in pieces, and the output goes to one
#   cut        the input ends at any byte
#   changed    a byte of the input, or a line, is changed, taken out, put in or moved
#   limits     a limit of docs/FORMATS.md is just met or just passed
#   long       the input has 16,777,216 bytes, or one more
#   calls      the script has 262,144 calls, or one more
#   read       a read fails
#   folder     standard input is a folder, or closed
#   write      a write fails, or takes nothing
#   closed     nobody reads the output, or only some of it; or the device is full; or standard output is closed
#   memory     an allocation fails, and in half of these runs all behind it
#   several    two to four at once of the kinds limits, changed, cut, read, write, memory, pipe and closed
#
# A run is right where it ends within 60 seconds, prints nothing to standard error, and:
# - where a read failed: status 4 and its line; else where the input is no script (bench/first_fault.py): 3 and its line;
# - else where a write failed: 5; and else 0. What was written is a front of the text that was to be written, with 0 all of
#   it, and this text passes bench/check_run.py. With 3 and 4 a write that fails changes nothing but what came of the line;
# - or, where an allocation failed, 6, and nothing was written.
. "$(dirname "$(readlink -f "${BASH_SOURCE[0]}")")/common.sh"
if [[ ${1-} == seed ]]; then
    take_number 'seed SEED' 18 0 "${@:2}"
    words=(seed "$number")
else
    take_number 'SECONDS | seed SEED' 6 600 "$@"
    words=(for "$number" "$(date +%s)000")
fi

program=${OAKMAP:-}
if [[ -z $program ]]; then
    program=$("$home/bin/oakmap" --program) || fail "there is no program"
fi
[[ -x $program ]] || fail "there is no program $program"
for library in fail_io fail_allocation; do
    cc -shared -fPIC -O1 -o "$room/$library.so" "$home/bench/$library.c" -ldl || fail "$library.c does not compile"
done
PYTHONDONTWRITEBYTECODE=1 python3 "$home/bench/torture.py" "$(readlink -f "$program")" "$room" "${words[@]}"
