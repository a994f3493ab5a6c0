#!/bin/sh
# The wrong programs beyond those that the gate tries: tests/edits/CRATE/*.edit, each of which the prover must refuse. They are tried in a
# copy of the tree, in which they stand in the place of the gate's own. Prints a line for each and the count at the end. `make edits`, or
# `make edits CRATE=prepare` for one crate.
set -eu

cd "$(dirname "$0")/.."
# the names of the folders are those of crates, without spaces
[ $# -gt 0 ] || set -- $(ls tests/edits)
copy=$(mktemp -d)
trap 'rm -rf "$copy"' EXIT
mkdir "$copy/tree"
tar -cf - --exclude='crates/*/out' --exclude='crates/*/must-fail' crates crates.txt | tar -xf - -C "$copy/tree"
written=0
for crate in "$@"; do
    [ -d "tests/edits/$crate" ] || { echo "there is no tests/edits/$crate" >&2; exit 2; }
    cp -R "tests/edits/$crate" "$copy/tree/crates/$crate/must-fail"
    written=$((written + $(find "tests/edits/$crate" -name '*.edit' | wc -l)))
done
status=0
(cd "$copy/tree" && rt must-fail "$@") >"$copy/said" 2>&1 || status=$?
grep '^rt: must-fail ' "$copy/said" | sed -e '/: refused, as it must be/s/^rt: must-fail/ok/' -e 's/^rt: must-fail/FAILED/'
refused=$(grep -c '^rt: must-fail .*: refused, as it must be' "$copy/said") || true
[ "$refused" -eq "$written" ] && [ "$status" -eq 0 ] || tail -n 30 "$copy/said"
echo "$refused passed, $((written - refused)) failed"
exit $status
