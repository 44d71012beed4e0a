#!/bin/sh
# Short names for what one runs often: ./do quick, try, check CRATE, edits CRATE, rows, docs, gate.
cd "$(dirname "$0")" || exit 1

# Tries the wrong bodies of a crate that the gate leaves out: its folder more-edits takes the place of must-fail meanwhile.
edits() {
    crate=crates/$1
    [ -d "$crate/more-edits" ] || { echo "$crate has no folder more-edits" >&2; exit 2; }
    [ ! -e "$crate/must-fail.kept" ] || { echo "$crate/must-fail.kept is there: move it back first" >&2; exit 2; }
    trap 'mv "$crate/must-fail" "$crate/more-edits"; [ ! -e "$crate/must-fail.kept" ] || mv "$crate/must-fail.kept" "$crate/must-fail"' EXIT
    trap 'exit 1' INT TERM
    [ ! -e "$crate/must-fail" ] || mv "$crate/must-fail" "$crate/must-fail.kept"
    mv "$crate/more-edits" "$crate/must-fail"
    rt must-fail "$1"
}

# What one tries while one writes, by the program and the library for C that are built without a proof: the rows, the scripts, and the documents.
try() {
    python3 tools/quick || exit
    status=0
    python3 tools/rows || status=1
    sh tools/c_test out/quick/libtitan.a || status=1
    TITAN=$PWD/out/quick/titan sh docs/check || status=1
    exit $status
}

case "$1" in
    quick) shift; exec python3 tools/quick "$@" ;;
    try) [ $# -eq 1 ] || { echo "usage: ./do try" >&2; exit 2; }; try ;;
    check) cd "crates/$2" && rt check ;;
    edits) edits "$2" ;;
    rows) cd crates/rows && rt run ;;
    docs) sh docs/definitions >docs/DEFINITIONS.md && { made=$(sh docs/assurance) && printf '%s\n' "$made" >docs/ASSURANCE.md && sh docs/check; } ;;
    gate) sh .ci/run ;;
    *) echo "usage: ./do quick | try | check CRATE | edits CRATE | rows | docs | gate" >&2; exit 2 ;;
esac
