#!/usr/bin/env bash
# Runs a first session, crates/dmypy/stdin, by the program: `scripts/first-session.sh [--proved | --built]`.
#
# Without a word it compiles the program without proof, anew at each call, in some three minutes of a processor. With
# --proved it proves and builds the program, an hour or more the first time, and says how far it is, in a line for each
# crate; it leaves the program as crates/dmypy/out/dmypy. With --built it runs the program that was left there.
# The session's replies stand on standard output, all else on standard error.
set -euo pipefail
cd "$(dirname "${BASH_SOURCE[0]}")/../crates"

log=$(mktemp)
trap 'rm -f "$log"' EXIT
declare -A uses=()
order=()

say() {
    echo "first-session: $*" >&2
}

# Runs a command in a crate's folder. What it says is shown only where it fails.
quietly() {
    local crate=$1 status=0
    shift
    (cd "$crate" && "$@") > "$log" 2>&1 || status=$?
    [[ $status -eq 0 ]] || { cat "$log" >&2 && say "$1 $2 failed in $crate with status $status" && exit 1; }
}

# Reads which libraries each crate stands on.
read_uses() {
    local line
    while IFS= read -r line; do
        line=${line%%#*}
        if [[ $line == *:* ]]; then uses[${line%%:*}]=${line#*:}; fi
    done < ../crates.txt
}

# Adds to `order` the crates of the repository that a crate stands on, each after those below it, and the crate itself.
arrange() {
    local library
    for library in ${uses[$1]}; do
        if [[ -v uses[$library] && " ${order[*]} " != *" $library "* ]]; then arrange "$library"; fi
    done
    order+=("$1")
}

# Proves the libraries one by one, and then the program, which it builds. Says before each crate which it is.
prove() {
    local count=0 crate
    read_uses
    arrange dmypy
    for crate in "${order[@]}"; do
        count=$((count + 1))
        say "crate $count of ${#order[@]}, $crate; $((SECONDS / 60)) minutes so far"
        if [[ $crate != dmypy ]]; then quietly "$crate" rt lib; fi
    done
    quietly dmypy rt run -- session < dmypy/stdin
    say "the proved program is crates/dmypy/out/dmypy, after $((SECONDS / 60)) minutes"
}

# Compiles the program without proof and runs the session by it.
try() {
    say "compiles the program without proof, in some three minutes: it is NOT proved, nor kept (--proved proves it)"
    (cd dmypy && rt try --steps 1 -- session < stdin) 2> "$log" || { cat "$log" >&2 && say "failed" && exit 1; }
}

case ${1:-} in
    '') try ;;
    --proved) prove ;;
    --built) ;;
    *) say "no such word: $1" && exit 2 ;;
esac
if [[ -n ${1:-} ]]; then timeout 60 dmypy/out/dmypy session < dmypy/stdin; fi
