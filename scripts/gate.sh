#!/usr/bin/env bash
# The gate: `scripts/gate.sh [--quick | --proofs | --anew]`, from any folder.
#
# First comes what is told in seconds: the layout of the code, by the kit's formatter and in its columns, the names in the
# documents, whether the program calls each function, whether the conditions of calls are listed, and whether each must-fail
# edit fits its text. Where one of these fails the gate ends at once; with --quick they are all. Then it runs the tests and
# proves and builds every crate by `rt ci`; with --proofs that is all, and what it proved is kept on this machine. Then it
# runs the built program by the other scripts, and tries the must-fail edits. Where nothing failed it leaves the program and
# its SHA-256 in out/.
# The crates are proved and built in a copy without the edits: `rt ci` would try these one by one, each with a load of its
# crate, after it had proved each crate a second time; scripts/gate/edits.py tries several in one check, each crate's once
# `rt ci` has proved it. What it found refused is kept, too; with --anew nothing that is kept counts, and all is proved and tried.
# The crates of tests are left out of that copy: `rt ci` would prove that each step of a test is safe, a quarter of its work, which
# says nothing of what is tested. scripts/gate/tests.py runs them. (`rt ci` at the top of the repository takes them in.)
# Tests and edits run beside the proofs, on the processors that these leave free.
#
# Once the gate has run for GATE_MINUTES (150; with --anew there is no such end), it begins no more crate's edits; those are named
# as not tried, which is no failure. The line before the last says what was done, and what was not. The last line is
# `gate: N passed, M failed`, the sum of all, and the status is 1 if anything failed.
set -u
cd "$(dirname "${BASH_SOURCE[0]}")/.." || exit 1

begun=$(date +%s)
part=${1:-}
room=$(mktemp -d) && tree=$(mktemp -d) && chmod 755 "$tree" || exit 1
trap 'rm -rf "$room" "$tree"' EXIT
log=$room/log proofs=$room/proofs tested=$room/tested edits_tested=$room/edits_tested tried=$room/tried
touch "$proofs" "$tried"
passed=0
failed=0

# Prints the last line and ends the gate.
close() {
    echo "gate: $passed passed, $failed failed"
    [[ $failed -eq 0 ]]
    exit
}

# Runs a command and adds up the numbers of its last line, which has the form `N passed, M failed`, with or without a
# name before it. A command that ends with another status than 0, or without that line, or that judged nothing, has failed
# at least once. Its status is 0 if nothing has failed so far.
run() {
    "$@" | tee "$log"
    judge "${PIPESTATUS[0]}" "$@"
}

# Adds up the last line of the log of a command that ended with this status.
judge() {
    local status=$1 pattern='(^|: )([0-9]+) passed, ([0-9]+) failed$' last good=0 bad=0
    shift
    last=$(grep -v '^[[:space:]]*$' "$log" | tail -n 1)
    if [[ $last =~ $pattern ]]; then
        good=${BASH_REMATCH[2]}
        bad=${BASH_REMATCH[3]}
    else
        echo "gate: failed: no closing line: $*"
        bad=1
    fi
    if [[ $status -ne 0 && $bad -eq 0 ]]; then
        echo "gate: failed: status $status: $*"
        bad=1
    fi
    # (where the time for edits was over before the first, none was judged)
    if [[ $good -eq 0 && $bad -eq 0 ]] && ! grep -q '^edits: 0 tried, 0 kept, .* not tried$' "$log"; then
        echo "gate: failed: nothing was judged: $*"
        bad=1
    fi
    passed=$((passed + good))
    failed=$((failed + bad))
    [[ $failed -eq 0 ]]
}

# Judges what was begun before the proofs, and ran beside them.
judge_beside() {
    wait "$1"
    local status=$?
    tee "$log" < "$2"
    judge "$status" "$3"
}

# Looks at what is told in seconds, up to the first that fails.
quick() {
    run python3 scripts/gate/check_format.py &&
        run python3 scripts/gate/check_layout.py &&
        run python3 scripts/gate/check_names.py &&
        run python3 scripts/gate/check_uncalled.py &&
        run python3 scripts/gate/check_conditions.py &&
        run python3 scripts/gate/edits.py --fit
}

# Makes the copy in which the crates are proved.
copy() {
    local left_out=(--exclude=./.git --exclude=./out --exclude='./crates/*/out' --exclude='./crates/*/must-fail' --exclude='./crates/*tests')
    tar -c --no-wildcards-match-slash "${left_out[@]}" . | tar -x -C "$tree" &&
        sed -i '/^[a-z_]*tests:/d' "$tree/crates.txt"
}

# Proves and builds the crates in the copy, by `rt ci` with the libraries below each crate remembered.
prove() {
    env -C "$tree" python3 "$PWD/scripts/gate/rt_ci.py" "${anew[@]}" 2>&1 | tee "$proofs"
    local status=${PIPESTATUS[0]}
    cp "$proofs" "$log"
    judge "$status" rt ci
    # (who follows it waits for a closing line)
    echo "0 passed, 0 failed" >> "$proofs"
}

# Says how long the gate took, and how many proofs and edits it made and tried, took from earlier runs, and left.
tell() {
    local made kept edits
    made=$(grep -cE '^rt: \w+ proved$' "$proofs")
    kept=$(grep -cE '^rt: \w+ is kept: ' "$proofs")
    edits=$(sed -n 's/^edits: \([0-9]* tried, .* not tried\)$/\1/p' "$tried")
    echo "gate: $(((SECONDS + 30) / 60)) minutes; proofs: $made made, $kept kept; edits: ${edits:-none tried}"
}

# Leaves the proved program and its sum in out/, from where a release may take them, if nothing has failed.
leave() {
    [[ $failed -eq 0 ]] || return
    mkdir -p out && cp "$tree/crates/dmypy/out/dmypy" out/dmypy && (cd out && sha256sum dmypy > dmypy.sha256) ||
        { echo "gate: failed: the program cannot be left in out/" && failed=1; }
}

anew=()
minutes=150
case $part in
    --anew) anew=(--anew) minutes=inf ;;
    --quick | --proofs | '') ;;
    *) echo "gate: failed: no such word: $part" && failed=1 && close ;;
esac
export GATE_MINUTES="${GATE_MINUTES:-$minutes}"
if [[ ! $GATE_MINUTES =~ ^([0-9]+|inf)$ ]]; then
    echo "gate: failed: GATE_MINUTES is no number of minutes: $GATE_MINUTES" && failed=1 && close
fi

quick || { echo "gate: it ends here, since what is told in seconds failed" && close; }
[[ $part != --quick ]] || close
rm -f out/dmypy out/dmypy.sha256
copy || { echo "gate: failed: no copy of the repository" && failed=1 && close; }

# Four checks side by side, each with one job: `rt ci` alone reckons with twice the memory that these crates take, and lets
# half of the processors wait for it.
export RT_JOBS="${RT_JOBS:-4}"
nice -n 19 python3 scripts/gate/tests.py > "$tested" 2>&1 &
tests=$!
if [[ $part == --proofs ]]; then
    prove
    judge_beside "$tests" "$tested" scripts/gate/tests.py
    tell
    close
fi

nice -n 19 python3 scripts/gate/edits_test.py > "$edits_tested" 2>&1 &
edits_test=$!
how=(--libraries "$tree/crates" --follow "$proofs" --begun "$begun" "${anew[@]}")
nice -n 19 python3 scripts/gate/edits.py "${how[@]}" > "$tried" 2>&1 &
edits=$!
prove
run python3 "$tree/scripts/gate/readme.py"
run python3 "$tree/scripts/gate/examples.py"
run python3 "$tree/scripts/gate/rows.py"
run python3 "$tree/scripts/gate/held_session.py"
run python3 "$tree/scripts/gate/long_imports.py"
run python3 "$tree/scripts/gate/refused_growths.py"
run python3 "$tree/scripts/gate/counted_growths.py"
run python3 "$tree/scripts/gate/deep_inputs.py"
run python3 "$tree/scripts/gate/real_files.py"
run python3 "$tree/scripts/gate/editor.py"
run python3 "$tree/scripts/gate/project.py"
run python3 "$tree/scripts/gate/hooks.py"
run python3 "$tree/scripts/gate/commits.py"
run python3 "$tree/scripts/gate/ignores.py"
run python3 "$tree/scripts/gate/release.py"
judge_beside "$tests" "$tested" scripts/gate/tests.py
judge_beside "$edits_test" "$edits_tested" scripts/gate/edits_test.py
judge_beside "$edits" "$tried" scripts/gate/edits.py
leave
tell
close
