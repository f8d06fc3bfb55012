#!/usr/bin/env bash
# The proved library against the second checker, by other hands, and by brute force; a share of it, in under two minutes. For a longer run give the
# first seed, the inputs, the small programs and the inputs of each program: bash tests/library.sh 1000000 1000000 50000 20000
set -eu
cd "$(dirname "$0")/.."

fail() {
    echo "library tests: $1"
    exit 1
}

command -v cargo >/dev/null || fail "cargo is missing"
bash tests/archive.sh || fail "no archive"
bash tests/programs.sh || fail "the programs are not proved"
export CARGO_TARGET_DIR="$PWD/target/cargo"
for package in second compare; do
    cargo build --quiet --release --manifest-path "tests/$package/Cargo.toml" || fail "$package does not compile"
done
cargo test --quiet --release --manifest-path tests/second/Cargo.toml || fail "the second checker's own samples"
target/cargo/release/selftest 20000 4000 4000 || fail "the second checker's selftest"
programs=(target/bin/print_verdict target/bin/normalize target/bin/flatten target/bin/bounds)
target/cargo/release/compare "${1:-0}" "${2:-100000}" "${3:-4000}" "${4:-2000}" "${programs[@]}" || fail "a difference"
echo "library tests: passed"
