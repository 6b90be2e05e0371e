#!/usr/bin/env bash
# Measures what this machine takes for a load that no cache holds, and for an ordered step, so that one can tell what of a
# call's time is the machine's.
#
# usage: bench/time_machine.sh
#
# The program is bench/machine.cpp, built by `g++ -O2`; it says what it prints. It wants two processors.
. "$(dirname "$(readlink -f "${BASH_SOURCE[0]}")")/common.sh"
(($# == 0)) || {
    printf 'usage: bench/time_machine.sh\n' >&2
    exit 2
}
command -v g++ >/dev/null || fail "a package is missing, as Debian calls it: g++"
g++ -O2 -march=x86-64-v2 -std=c++20 -pthread -o "$room/machine" "$home/bench/machine.cpp" ||
    fail "bench/machine.cpp was not built"
"$room/machine"
