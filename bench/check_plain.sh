#!/bin/sh
# Runs the differential test of tests/ on the plain C in the place of the proved library:
# a yardstick that gives the same answers makes the same checks.
set -eu

here=$(cd "$(dirname "$0")" && pwd)
root=$(dirname "$here")
out=$root/build/plain

mkdir -p "$out"
for file in plain_sha256 plain_texts; do
    gcc -std=c11 -O3 -Wall -Wextra -Werror -DPREFIX=probe -c "$here/$file.c" -o "$out/$file.o"
done
rm -f "$out/libprobe.a"
ar rcs "$out/libprobe.a" "$out/plain_sha256.o" "$out/plain_texts.o"
cd "$root/tests"
PROBE_LIB_DIR=$out CARGO_TARGET_DIR=$out/tests exec cargo run --release --offline
