#!/bin/sh
# Compares the proved check with an answer set solver; exit status 1 on a difference.
# Arguments are handed on: [first seed] [programs], also after --reading NAME or --bounds.
for tool in gringo clasp; do
    if ! command -v "$tool" >/dev/null 2>&1; then
        echo "skipped: $tool is missing, apt-get install gringo clasp"
        exit 0
    fi
done
cd "$(dirname "$0")" || exit 1
bash ../archive.sh || exit 1
export CARGO_TARGET_DIR="$PWD/../../target/cargo"
cargo build --release --quiet --offline || exit 1
../../target/cargo/release/solver "$@" || exit 1
