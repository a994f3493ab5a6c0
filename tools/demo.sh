#!/bin/sh
# The line program on the scope's example, each line beside what it is answered: number, code, mark, and for a time the acceptance numbers
# of the transfers that it expired. `make switch` builds the program.
set -eu

cd "$(dirname "$0")/.."
answers=$(mktemp)
trap 'rm -f "$answers"' EXIT
crates/switch/out/switch <crates/switch/stdin >"$answers"
echo 'The line program: alpha (cap 100) and beta join; alpha sends 60.5, and 40 more is too much; a wrong fulfilment is refused; the clock'
echo 'reaches the expiration and transfer 1 expires; the abort that comes after it is told so.'
echo
cut -c 1-100 crates/switch/stdin | paste -d '|' - "$answers" | while IFS='|' read -r line answer; do
    printf '%-102s %s\n' "$line" "$answer"
done
