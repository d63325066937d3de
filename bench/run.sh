#!/usr/bin/env bash
# Measures both engines: positions a second, then instructions a position where valgrind is there (docs/MEASURES.md).
#
# usage: bench/run.sh CHECKOUT [ROUNDS]
#
# CHECKOUT is a checkout of nelhage/ultimattt at 87ef0d9c7c, or its src folder; ROUNDS is 7 unless given.
set -euo pipefail
[ $# -ge 1 ] || { echo "usage: bench/run.sh CHECKOUT [ROUNDS]" >&2; exit 1; }
checkout=$(cd "$1" && pwd)
cd "$(dirname "${BASH_SOURCE[0]}")/.."

tools/build interface
tools/oracle/build.sh "$checkout"
(cd bench && cargo build --release --quiet --target-dir ../target/bench)
bench=target/bench/release/bench
"$bench" times "${2:-7}"

command -v valgrind > /dev/null || exit 0
counts=$(mktemp)
trap 'rm -f "$counts"' EXIT

# The instructions of one search, and the positions it entered.
counted() {
    positions=$(valgrind --tool=callgrind --callgrind-out-file=/dev/null --toggle-collect="search_$1" "$bench" one "$@" 2> "$counts")
    instructions=$(sed -n 's/.*Collected : \([0-9]*\).*/\1/p' "$counts")
    echo "$instructions $positions"
}

echo
printf '%-9s %5s %7s %12s %12s %6s\n' position depth entries 'Rust instr.' 'proved' ratio
"$bench" rows | while read -r name depth entries; do
    read -r rust positions <<< "$(counted rust "$name" "$depth" "$entries")"
    read -r proved _ <<< "$(counted proved "$name" "$depth" "$entries")"
    awk -v n="$name" -v d="$depth" -v e="$entries" -v r="$rust" -v p="$proved" -v c="$positions" \
        'BEGIN { printf "%-9s %5d %7d %12.0f %12.0f %6.2f\n", n, d, e, r / c, p / c, r / p }'
done
