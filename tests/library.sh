#!/bin/sh
# What a gateway's author does with the library: the header in C and C++, the example under valgrind, in memory and over a file kept
# over a restart, and built from an installed copy in another folder by pkg-config. Prints a line for each and the count at the end.
# It needs what `make lib` builds.
set -u

cd "$(dirname "$0")/.." || exit 1
root=$(pwd)
room=$(mktemp -d)
trap 'rm -rf "$room"' EXIT
passed=0
failed=0
warnings='-Wall -Wextra -Werror'

try() { # try NAME COMMAND..
    name=$1
    shift
    if "$@" >"$room/said" 2>&1; then
        echo "ok library: $name"
        passed=$((passed + 1))
    else
        echo "FAILED library: $name"
        cat "$room/said"
        failed=$((failed + 1))
    fi
}

# The header's constants, on both sides of each limit, from a compiler and a standard.
constants() { # COMPILER STANDARD
    language=c
    [ "$1" != g++ ] || language=c++
    "$1" -std="$2" -pedantic $warnings -Wno-long-long -Iinclude -x $language tests/header.c -x none build/libvaikshurd.a \
        -o "$room/constants" && "$room/constants"
}

checked() { # checked COMMAND..: under valgrind, which must find nothing
    valgrind -q --leak-check=full --show-leak-kinds=all --errors-for-leak-kinds=all --error-exitcode=9 "$@"
}

# All that the archive asks of its host.
asks() {
    asked=$(nm -u build/libvaikshurd.a | sed -n 's/^ *U //p' | sort -u | tr '\n' ' ')
    [ "$asked" = 'memcpy memset ' ] || { echo "the archive asks for: $asked"; return 1; }
}

gateway() {
    gcc -std=c99 -pedantic -g $warnings -Iinclude examples/gateway.c build/libvaikshurd.a -o "$room/gateway"
}

in_memory() {
    checked "$room/gateway" >"$room/told" && diff examples/gateway.expected "$room/told"
}

# Two runs on one file tell the same story, but for the two lines about the stop.
restarted() {
    checked "$room/gateway" "$room/book" >"$room/first" && checked "$room/gateway" "$room/book" >"$room/second" || return 1
    sed '$d' "$room/first" >"$room/told"
    sed 1d "$room/second" >>"$room/told"
    diff examples/gateway.expected "$room/told"
}

# Any misuse gets a message and a status of its own.
misused() {
    echo 'not a book' >"$room/short"
    head -c "$(wc -c <"$room/book")" /dev/zero >"$room/zeros"
    for words in "$room/short" "$room/zeros" "$room" "$room/none/none" "one two"; do
        # the words are to be split
        said=$("$room/gateway" $words 2>&1 >/dev/null)
        status=$?
        [ -n "$said" ] && { [ $status -eq 1 ] || [ $status -eq 2 ]; } || { echo "gateway $words: status $status, '$said'"; return 1; }
    done
}

# From a folder of its own, with nothing but the installed copy. In a shell of its own, so that the folder stays.
installed() (
    make -s install PREFIX="$room/prefix" || exit 1
    mkdir "$room/elsewhere" && cp examples/gateway.c "$room/elsewhere" && cd "$room/elsewhere" || exit 1
    PKG_CONFIG_PATH=$room/prefix/lib/pkgconfig
    export PKG_CONFIG_PATH
    flags=$(pkg-config --cflags --libs vaikshurd) || exit 1
    case $flags in *"$root"*) echo "the flags lead back to the sources: $flags" && exit 1 ;; esac
    gcc -std=c99 $warnings gateway.c $flags -o gateway && ./gateway >told && diff "$root/examples/gateway.expected" told
)

# The README's lines of C work when pasted.
pasted() (
    sed -n '/^```c$/,/^```$/p' README.md | sed '/^```/d' >"$room/pasted.c" && grep -q vaik_open "$room/pasted.c" || exit 1
    gcc $warnings "$room/pasted.c" $(PKG_CONFIG_PATH=build pkg-config --cflags --libs vaikshurd) -o "$room/pasted" || exit 1
    [ "$("$room/pasted")" = '0 0 0' ]
)

# An installed copy can be moved: the pkg-config file knows its own folder.
moved() (
    mv "$room/prefix" "$room/other prefix" && mkdir "$room/again" && cp examples/gateway.c "$room/again" && cd "$room/again" || exit 1
    PKG_CONFIG_PATH="$room/other prefix/lib/pkgconfig"
    export PKG_CONFIG_PATH
    eval "gcc -std=c99 $warnings gateway.c $(pkg-config --cflags --libs vaikshurd) -o gateway" && ./gateway >/dev/null
)

try 'the header is the source'"'"'s and the archive'"'"'s' python3 tests/header.py --archive build/libvaikshurd.a
for standard in c99 c11 c17; do
    try "the header in $standard by gcc" constants gcc $standard
done
try 'the header in c99 by clang' constants clang c99
for standard in c++98 c++11 c++20; do
    try "the header in $standard" constants g++ $standard
done
try 'the archive asks its host for memcpy and memset alone' asks
try 'the example builds without a warning' gateway
try 'the example in memory, under valgrind' in_memory
try 'the example over a file, restarted, under valgrind' restarted
try 'the example misused' misused
try 'the lines of the README' pasted
try 'the example from an installed copy, by pkg-config' installed
try 'the example from an installed copy that was moved' moved

echo "$passed passed, $failed failed"
[ $failed -eq 0 ]
