#!/usr/bin/env bash
# Makes a release: `scripts/release.sh [--program PROGRAM] [--to FOLDER]`, from any folder, without network.
#
# It takes the proved program that a whole gate left, out/dmypy, whose SHA-256 has to be the one in out/dmypy.sha256.
# Into the folder, out/release if no other is given, it writes a wheel and a tar file, each with the program, the
# scripts and the pages for users and the language server, and SHA256SUMS, as `sha256sum -c` takes it. Their names have
# the version that stands in VERSION. Another program may be given, to try a release: the script says so then.
set -euo pipefail
export LC_ALL=C
top=$(cd "$(dirname "${BASH_SOURCE[0]}")/.." && pwd)
program=''
folder=$top/out/release

# Ends the script, with a line that says why.
stop() {
    echo "release: $*" >&2
    exit 2
}

while [[ $# -gt 0 ]]; do
    [[ $# -gt 1 ]] || stop "a word is missing after $1"
    case $1 in
        --program) program=$2 ;;
        --to) folder=$2 ;;
        *) stop "no such word: $1" ;;
    esac
    shift 2
done

if [[ -n $program ]]; then
    [[ -f $program && -x $program ]] || stop "$program is no program"
    echo "release: the program is $program, which is not the gate's: nothing here says that it is proved" >&2
else
    program=$top/out/dmypy
    [[ -f $program ]] ||
        stop "there is no out/dmypy: scripts/gate.sh, with no word after it, leaves it there where nothing failed"
    (cd "$top/out" && sha256sum --quiet --strict -c dmypy.sha256) ||
        stop "out/dmypy is not what the gate left: its SHA-256 is not the one in out/dmypy.sha256"
fi

mkdir -p "$folder"
rm -f "$folder"/dmypy*proved-*.whl "$folder"/dmypy-proved-*.tar "$folder/SHA256SUMS"
python3 "$top/scripts/release/pack.py" "$program" "$folder"
cd "$folder"
sha256sum dmypy*proved-* > SHA256SUMS
cat SHA256SUMS
