#!/usr/bin/env bash
# Proves and builds the library over C, links the program of this folder with it, and runs it.
#
# usage: examples/c/run.sh
#
# It wants a C compiler. It ends with 0 where the program printed what is due.
set -eu -o pipefail
here=$(dirname "$(readlink -f "${BASH_SOURCE[0]}")")
crate=$here/../../crates/oak_c
kit=$(dirname "$(rt doc)")
room=$(mktemp -d)
trap 'rm -rf "$room"' EXIT
(cd "$crate" && rt lib) >"$room/log" 2>&1 || {
    cat "$room/log" >&2
    echo "run.sh: crates/oak_c was not proved and built" >&2
    exit 1
}
cc -std=c11 -O2 -Wall -Wextra -o "$room/put_and_get" "$here/put_and_get.c" "$crate/out/liboak_c.a" "$kit/c/liblibc_c.a"
"$room/put_and_get" | tee "$room/text"
diff "$room/text" "$here/put_and_get.txt"
