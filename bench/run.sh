#!/bin/sh
# Builds the benches against the proved libraries and runs them: texts and hash, then the book. What is missing of the compilers and of the
# headers of OpenSSL and SQLite is installed first. `make bench` has the libraries made before.
#   bench/run.sh [texts] [book]
#   PROBE_LIB_DIR       where libprobe.a is (default: crates/probe/out)
#   VAIKSHURD_LIB_DIR   where libvaikshurd.a is (default: build)
set -eu

here=$(cd "$(dirname "$0")" && pwd)
root=$(dirname "$here")
probe=${PROBE_LIB_DIR:-$root/crates/probe/out}/libprobe.a
vaikshurd=${VAIKSHURD_LIB_DIR:-$root/build}/libvaikshurd.a
out=$root/build/bench

need() { # need PACKAGE TEST..: installs the package unless the test holds
    package=$1
    shift
    "$@" >/dev/null 2>&1 && return
    echo "installing $package" >&2
    if [ "$updated" = no ]; then
        apt-get update -qq
        updated=yes
    fi
    apt-get install -y -qq "$package" >&2
}

has_header() { echo "#include <$1>" | gcc -E -x c - ; }

built() { # built ARCHIVE COMMAND: the archive is there
    [ -e "$1" ] && return
    echo "no $1: make it by '$2'" >&2
    exit 1
}

# The baselines get the same flags as any C program: no target beyond plain x86-64.
flags='-std=c11 -D_GNU_SOURCE -O3 -Wall -Wextra -Werror'

plain() { # plain FILE..: each of them built by both compilers, under the compiler's name as prefix
    objects=
    for compiler in gcc clang; do
        for file in "$@"; do
            "$compiler" $flags -DPREFIX=$compiler -c "$here/$file.c" -o "$out/$compiler.$file.o"
            objects="$objects $out/$compiler.$file.o"
        done
    done
}

texts() {
    need libssl-dev has_header openssl/sha.h
    built "$probe" 'make probe'
    plain plain_sha256 plain_texts
    gcc $flags -o "$out/texts" "$here/texts.c" $objects "$probe" -lcrypto
    "$out/texts"
}

book() {
    need libsqlite3-dev has_header sqlite3.h
    need cargo cargo --version
    built "$vaikshurd" 'make lib'
    plain plain_texts plain_lookup
    (cd "$here/second" && CARGO_TARGET_DIR=$out/second cargo build --quiet --release --offline)
    (cd "$here" && gcc $flags -I"$root/include" -o "$out/book" books.c shape_bench.c full_bench.c pair_bench.c sqlite_book.c $objects \
        "$vaikshurd" "$out/second/release/librival.a" -lsqlite3 -lpthread -ldl -lm)
    "$out/book"
}

updated=no
need gcc gcc --version
need libc6-dev test -e /usr/include/stdio.h
need clang clang --version
mkdir -p "$out"
[ $# -gt 0 ] || set -- texts book
for part in "$@"; do
    case $part in
    texts | book) "$part" ;;
    *)
        echo "usage: bench/run.sh [texts] [book]" >&2
        exit 2
        ;;
    esac
done
