#!/usr/bin/env bash
# Builds the Rust engine behind a driver that answers request lines (docs/ORACLE.md).
#
# usage: tools/oracle/build.sh CHECKOUT [OUT]
#
# CHECKOUT is a checkout of nelhage/ultimattt at 87ef0d9c7c, or its src folder. The six texts that answers depend on are taken as
# they are, and their sums are tested (texts.sha256); what stands in for the rest of the crate, and the driver, are in parts/.
# The crates are put together in OUT (target/oracle of the repository if not given), and the driver is OUT/oracle-bin.
# It needs rustc and cargo (1.95 was used) and five crates from Debian's packages; nothing is fetched.
set -euo pipefail
here=$(cd "$(dirname "${BASH_SOURCE[0]}")" && pwd)
registry=${REGISTRY:-/usr/share/cargo/registry}
packages="librust-smallvec-dev librust-rand-dev librust-serde-dev librust-serde-derive-dev librust-parking-lot-dev"

refuse() {
    echo "build.sh: $1" >&2
    exit 1
}

[ $# -ge 1 ] || refuse "usage: tools/oracle/build.sh CHECKOUT [OUT]"
if [ -f "$1/src/lib/game.rs" ]; then texts=$(cd "$1/src" && pwd); else texts=$(cd "$1" && pwd); fi
out=${2:-$here/../../target/oracle}
(cd "$texts" && sha256sum --check --quiet --strict "$here/texts.sha256") || refuse "$1 does not hold the six texts of 87ef0d9c7c"
for crate in smallvec rand serde serde_derive parking_lot; do
    compgen -G "$registry/$crate-[0-9]*" > /dev/null ||
        refuse "$crate is missing in $registry: apt-get install --no-install-recommends $packages"
done

mkdir -p "$out/.cargo"
out=$(cd "$out" && pwd)
cp -Rpf "$here/parts/." "$out/"
mkdir -p "$out/engine/src/texts"
cp -pf "$texts"/lib/{game,endgame,table,prove}.rs "$out/engine/src/"
cp -pf "$texts/lib/minimax.rs" "$texts/lib/game/notation.rs" "$out/engine/src/texts/"
rm -rf "$out/engine_stop/src"
cp -Rpf "$out/engine/src" "$out/engine_stop/src"
# a stand-in with the three constants of the evaluation replaced by weights that a caller sets
rm -rf "$out/engine_weights/src"
cp -Rpf "$out/engine/src" "$out/engine_weights/src"
sed -e 's/^const EVAL_PARTIAL_ONE: i64 = 1;$/const EVAL_PARTIAL_ONE: Weight = Weight(0);/' \
    -e 's/^const EVAL_PARTIAL_TWO: i64 = 3;$/const EVAL_PARTIAL_TWO: Weight = Weight(1);/' \
    -e 's/^const OVERALL_PARTIAL_WIN: i64 = 20;$/const OVERALL_PARTIAL_WIN: Weight = Weight(2);/' \
    "$texts/lib/minimax.rs" | cat - "$here/parts/engine_weights/weights.rs" > "$out/engine_weights/src/texts/minimax.rs"
cat > "$out/.cargo/config.toml" << END
[source.crates-io]
replace-with = "debian"
[source.debian]
directory = "$registry"
[net]
offline = true
END
(cd "$out" && RUSTC_BOOTSTRAP=1 cargo build --release --offline --quiet)
cp "$out/target/release/oracle" "$out/oracle-bin"
echo "built: $out/oracle-bin"
