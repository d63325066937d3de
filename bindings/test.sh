#!/usr/bin/env bash
# Builds the library and runs the tests of the bindings (docs/INTERFACE.md).
#
# usage: bindings/test.sh [CHECKOUT]
#
# Without an argument: the header's numbers are those of crates/interface/specs/Header.antt, the C example prints its stored output, and the
# wrapper's tests pass. That needs rt, cc and cargo. CHECKOUT is a checkout of nelhage/ultimattt at 87ef0d9c7c, or its src folder: with
# it the Rust engine is built too, which needs what tools/oracle/build.sh needs, and both are compared.
set -euo pipefail
[ $# -le 1 ] || { echo "usage: bindings/test.sh [CHECKOUT]" >&2; exit 1; }
checkout=
if [ $# -eq 1 ]; then checkout=$(cd "$1" && pwd); fi
cd "$(dirname "${BASH_SOURCE[0]}")/.."

tools/build interface

mkdir -p target/bindings
sed -nE 's/^(#define| )* ULTIMATTT_([A-Z_]+) (= )?([0-9][0-9a-fx]*).*/\2 = \4/p' bindings/c/ultimattt.h > target/bindings/numbers
sed -nE '/^[A-Z_]+ = [0-9a-fx]+$/p' crates/interface/specs/Header.antt | diff target/bindings/numbers -
cc -std=c99 -Wall -Wextra -Werror -pedantic -o target/bindings/example bindings/c/example.c target/staticlib/libinterface.a
target/bindings/example | diff - bindings/c/example.out
(cd bindings/rust && cargo test --offline)

if [ -n "$checkout" ]; then
    tools/oracle/build.sh "$checkout"
    (cd bindings/compare && cargo test --release -- --nocapture)
fi
echo "bindings: all tests passed"
