#!/usr/bin/env bash
# The benchmark: the proved calls beside Rust for speed alone, beside a port of the proved code (flatten beside read of what it writes) and beside
# naive iteration. Before it is timed, the Rust code is held to the proved calls on 50,000 seeded inputs; for more of them and no table:
# bash tests/bench.sh hold 1000000 [first seed]; for flatten alone: bash tests/bench.sh flatten; for bounds alone: bash tests/bench.sh bounds; for all
# files that climb by little a lap: bash tests/bench.sh circles. For a search for slow files: bash tests/bench.sh slowest [seed] [seconds], a minute if
# nothing is said; it prints the slowest and writes it, as the printing program is given it, to target/slowest.bin.
set -eu
cd "$(dirname "$0")/.."
bash tests/archive.sh
export CARGO_TARGET_DIR="$PWD/target/cargo"
cargo build --quiet --release --manifest-path tests/bench/Cargo.toml
target/cargo/release/bench "$@"
