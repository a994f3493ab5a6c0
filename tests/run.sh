#!/bin/sh
# The whole test: the prover's gate, the tables, the header, the comparisons with the second implementation, and what a gateway's author
# does with the library. The gate comes first, over the checkout as it is. The very last line is `N passed, M failed`, where N counts every
# part of it; the exit status is 0 only if M is 0.
set -u

cd "$(dirname "$0")/.." || exit 1
passed=0
failed=0
updated=no

# need PACKAGE COMMAND: installs Debian's package unless the command is there
need() {
    command -v "$2" >/dev/null 2>&1 && return
    echo "installing $1"
    if [ "$updated" = no ]; then
        apt-get update -qq
        updated=yes
    fi
    apt-get install -y -qq "$1" >/dev/null
}

# one NAME COMMAND..: a test that is its command's exit status
one() {
    name=$1
    shift
    if "$@"; then
        echo "ok $name"
        passed=$((passed + 1))
    else
        echo "FAILED $name"
        failed=$((failed + 1))
    fi
}

# many NAME COMMAND..: tests that the command counts itself, on its last line `N passed, M failed`
many() {
    name=$1
    shift
    mkdir -p build
    "$@" >"build/$name.log" 2>&1
    status=$?
    grep -E '^(rt: |ok |FAILED|installing)' "build/$name.log"
    counted=$(tail -n 1 "build/$name.log" | sed -n 's/^\([0-9][0-9]*\) passed, \([0-9][0-9]*\) failed$/\1 \2/p')
    if [ -z "$counted" ]; then
        echo "FAILED $name: it ended early (exit status $status)"
        tail -n 20 "build/$name.log"
        failed=$((failed + 1))
        return
    fi
    passed=$((passed + ${counted% *}))
    failed=$((failed + ${counted#* }))
    if [ "$status" -ne 0 ] && [ "${counted#* }" -eq 0 ]; then
        echo "FAILED $name: exit status $status"
        failed=$((failed + 1))
    fi
    [ "$status" -eq 0 ] || tail -n 40 "build/$name.log"
}

# The gate's line `rt: ok` counts each wrong program of crates/*/must-fail as refused, and none as bad: one whose text does not stand in its
# file any more, say, which the gate itself lets pass.
edits_refused() {
    line=$(grep '^rt: ok;' build/gate.log) || { echo "the gate's log has no line 'rt: ok'"; return 1; }
    refused=$(echo "$line" | sed -n 's/.*must-fail edits: \([0-9][0-9]*\) refused.*/\1/p')
    bad=$(echo "$line" | sed -n 's/.*must-fail edits: [^;]*, \([0-9][0-9]*\) bad.*/\1/p')
    written=$(find crates/*/must-fail -name '*.edit' | wc -l)
    [ "${bad:-0}" -eq 0 ] && [ "${refused:-0}" -eq "$written" ] && return
    echo "of $written wrong programs the gate refused ${refused:-0}, and ${bad:-0} were bad"
    grep 'BAD EDIT' build/gate.log
    return 1
}

# in a shell of its own, so that the folder stays
second() (
    make -s probe && cd tests && cargo run --release --offline
)

book() (
    make -s lib && cd tests && VAIKSHURD_LIB_DIR=$PWD/../build cargo run --release --offline --bin book
)

lines() (
    make -s switch && cd tests && cargo run --release --offline --bin lines
)

command -v rt >/dev/null 2>&1 || echo "the Rattle kit's rt is not on the PATH"
many gate rt ci
one edits edits_refused

need make make
need gcc gcc
need g++ g++
need clang clang
need cargo cargo
need python3 python3
need pkg-config pkg-config
need valgrind valgrind

one tables python3 tools/forms.py --check
one header python3 tests/header.py
many planted python3 tests/header.py --planted
many second second
many book book
many lines lines
many library tests/library.sh
many sanitizer tests/asan.sh

echo "$passed passed, $failed failed"
[ "$failed" -eq 0 ]
