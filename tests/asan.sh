#!/bin/sh
# The comparison of the book once more with AddressSanitizer on the host's side: the host and the second implementation are built with it,
# and the library's memcpy and memset pass through it. Cargo is the stable one: the flag is asked for by RUSTC_BOOTSTRAP, the sanitizer is
# gcc's. A tenth of the histories is run, since it is some seven times slower. It needs what `make lib` builds.
set -eu

cd "$(dirname "$0")"
target=x86_64-unknown-linux-gnu
VAIKSHURD_LIB_DIR=$(cd ../build && pwd)
CARGO_TARGET_DIR=$VAIKSHURD_LIB_DIR/asan
program=$CARGO_TARGET_DIR/$target/release/book
export VAIKSHURD_LIB_DIR CARGO_TARGET_DIR
RUSTC_BOOTSTRAP=1 RUSTFLAGS='-Zsanitizer=address -Zexternal-clangrt -Clinker=gcc -Clink-arg=-lasan' \
    cargo build --quiet --release --offline --bin book --target $target

sanitized() { # sanitized WORDS..: the program, with the sanitizer loaded before anything else
    LD_PRELOAD=$(gcc -print-file-name=libasan.so) SHARE=10 "$program" "$@" 2>&1
}

if seen=$(sanitized overrun) || ! echo "$seen" | grep -q 'AddressSanitizer: heap-buffer-overflow'; then
    echo 'FAILED sanitizer: it does not see a book that is lent longer than it is'
    echo '0 passed, 1 failed'
    exit 1
fi
echo 'ok sanitizer: it sees a book that is lent longer than it is'
status=0
said=$(sanitized) || status=$?
echo "$said" | sed -e '$d' -e 's/^ok /ok sanitized: /' -e 's/^FAILED /FAILED sanitized: /'
last=$(echo "$said" | tail -n 1)
case $last in
*' passed, '*' failed') ;;
*)
    echo "$last"
    echo "FAILED sanitized: it ended early (exit status $status)"
    last='0 passed, 1 failed'
    status=1
    ;;
esac
echo "$((${last%% *} + 1)) ${last#* }"
exit $status
