#!/bin/sh
# Random histories for SECONDS seconds, the library beside the second implementation. Each run has other histories; SEED, which every run
# prints, makes them the same again. It needs what `make lib` builds.
set -eu

# some shells count in SECONDS themselves
seconds=${SECONDS:-}
cd "$(dirname "$0")"
case $seconds in
'' | *[!0-9]*)
    echo "make fuzz SECONDS=n: '$seconds' is no number of seconds" >&2
    exit 2
    ;;
esac
[ -n "${SEED:-}" ] || unset SEED
VAIKSHURD_LIB_DIR=$(cd ../build && pwd)
export VAIKSHURD_LIB_DIR
exec env SECONDS="$seconds" cargo run --quiet --release --offline --bin book -- "histories: $seconds seconds"
