#!/usr/bin/env bash
# Builds the archive that the tests in C and Rust link with, target/staticlib/libfounded.a, from the crates as they stand. The gate sets LEFT_BY_RT_CI:
# then it is built over the libraries that `rt ci` has just proved and left in this checkout, else over those that rt proves for it.
set -eu
cd "$(dirname "$0")/.."
mkdir -p target/staticlib
archive="$PWD/target/staticlib/libfounded.a"
left=crates/founded/out/rlib
if [ -n "${LEFT_BY_RT_CI:-}" ] && [ -e "$left/founded.rlib/format" ] && [ ! -e "$left/stamp" ]; then
    kit=$(dirname "$(dirname "$(readlink -f "$(command -v rt)")")")
    words=(--crate-name founded_c src/lib.rt --crate-type staticlib --extern "std=$kit/rlibs/std.rlib" -L "dependency=$kit/rlibs")
    for library in walks reach sharing founded; do
        words+=(--extern "$library=$PWD/crates/$library/out/rlib/$library.rlib")
    done
    for rlib in crates/*/out/rlib; do
        words+=(-L "dependency=$PWD/$rlib")
    done
    words+=(--antt-project "$kit/rattle/logic/antt-project.json" --logic-built "$kit/logic_built" --toolchain "$kit/toolchain" --backend llvm)
    (cd crates/founded_c && "$kit/bin/rattle" build "${words[@]}" -o "$archive") >&2
else
    (cd crates/founded_c && rt lib) >&2
    cp crates/founded_c/out/libfounded_c.a "$archive"
fi
