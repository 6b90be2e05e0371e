# What the scripts of this folder share. A script sources it, and calls take_number first.
#
# home    the top of the repository
# room    a folder for what the script writes, removed at its end
# rounds_program  the program of crates/rounds, once build_rounds has built it
# number  the number that the script was given, or that stands for it
set -u -o pipefail

home=$(dirname "$(dirname "$(readlink -f "${BASH_SOURCE[0]}")")")
room=$(mktemp -d) || exit 1
trap 'rm -rf "$room"' EXIT
rounds_program=$home/crates/rounds/out/rounds

# Ends the script with what is wrong.
fail() {
    printf '%s: %s\n' "$(basename "$0")" "$*" >&2
    exit 1
}

# Takes the script's one word, a number: how the usage calls it, how many digits it may have, the number that
# stands for it where it is left out, and the script's words. Others end the script with its usage.
take_number() {
    local called=$1 digits=$2
    number=${4:-$3}
    if [[ $# -gt 4 || ! $number =~ ^[1-9][0-9]*$ || ${#number} -gt $digits ]]; then
        printf 'usage: bench/%s [%s]\n' "$(basename "$0")" "$called" >&2
        exit 2
    fi
}

# Proves and builds crates/rounds, in minutes where nothing is proved yet, by a run of it with these words.
build_rounds() {
    (cd "$home/crates/rounds" && rt run -- "$@") >"$room/log" 2>&1 || {
        cat "$room/log" >&2
        fail "crates/rounds was not proved and built"
    }
}
